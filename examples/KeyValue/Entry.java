/** A key with its value, and the entries behind it. */
class Entry {
    String key;
    int value;
    Entry next;

    Entry(String key, Entry next) {
        this.key = key;
        this.next = next;
    }
}
