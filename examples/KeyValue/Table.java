/** Values by their keys. It is no message: a private object, which never leaves its task. */
class Table {
    Entry[] lists;
    int size;

    Table(int lists) {
        this.lists = new Entry[lists];
    }

    /** The list in which a key stands: strings have no hashCode here, so their characters are added up. */
    int listOf(String key) {
        int sum = 0;
        for (int i = 0; i < key.length(); i++) {
            sum = sum + key.charAt(i);
        }
        return sum % lists.length;
    }

    /** The entry of a key, or null. */
    Entry entryOf(String key) {
        Entry entry = lists[listOf(key)];
        while (entry != null && !entry.key.equals(key)) {
            entry = entry.next;
        }
        return entry;
    }

    /** Writes the value of a key. */
    void write(String key, int value) {
        Entry entry = entryOf(key);
        if (entry == null) {
            int list = listOf(key);
            entry = new Entry(key, lists[list]);
            lists[list] = entry;
            size = size + 1;
        }
        entry.value = value;
    }
}
