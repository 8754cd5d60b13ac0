package kilim;

import java.util.Arrays;

/** A text of ASCII that grows: that of a journal. */
final class Text {
    private static final int FEW = 64;
    private static final int LONGEST_NUMBER = 20;
    private static final String HEXADECIMAL = "0123456789abcdef";

    /** Its units, in the first {@code length} bytes. */
    byte[] bytes = new byte[FEW];
    int length;

    void clear() {
        length = 0;
    }

    private void grow(int more) {
        if (bytes.length - length < more) {
            bytes = Arrays.copyOf(bytes, Math.max(2 * bytes.length, length + more));
        }
    }

    Text put(char unit) {
        grow(1);
        bytes[length++] = (byte) unit;
        return this;
    }

    @SuppressWarnings("deprecation")
    Text put(String ascii) {
        int more = ascii.length();
        grow(more);
        ascii.getBytes(0, more, bytes, length);
        length += more;
        return this;
    }

    Text put(Text other) {
        grow(other.length);
        System.arraycopy(other.bytes, 0, bytes, length, other.length);
        length += other.length;
        return this;
    }

    /** A number in decimal. */
    Text number(long number) {
        if (number == Long.MIN_VALUE) {
            return put("-9223372036854775808");
        }
        grow(LONGEST_NUMBER);
        if (number < 0) {
            bytes[length++] = '-';
            number = -number;
        }
        int digits = 1;
        for (long rest = number; rest >= 10; rest /= 10) {
            digits++;
        }
        for (int at = length + digits - 1; at >= length; at--) {
            bytes[at] = (byte) ('0' + number % 10);
            number /= 10;
        }
        length += digits;
        return this;
    }

    /** A mailbox by its name. */
    Text box(Mailbox box) {
        return number(box.task).put('.').number(box.number);
    }

    /** A text in quotes, or {@code null}. */
    Text quoted(String text) {
        if (text == null) {
            return put("null");
        }
        put('"');
        for (int i = 0; i < text.length(); i++) {
            char unit = text.charAt(i);
            if (unit >= 0x20 && unit <= 0x7e && unit != '"' && unit != '\\') {
                put(unit);
            } else {
                escaped(unit);
            }
        }
        return put('"');
    }

    /** The name of a class, or of an array's type, as class files have it. */
    Text name(String name) {
        for (int i = 0; i < name.length(); i++) {
            char unit = name.charAt(i) == '.' ? '/' : name.charAt(i);
            if (unit >= 'a' && unit <= 'z' || unit >= 'A' && unit <= 'Z' || unit >= '0' && unit <= '9' || "_$/[;".indexOf(unit) >= 0) {
                put(unit);
            } else {
                escaped(unit);
            }
        }
        return this;
    }

    private void escaped(char unit) {
        put("\\u");
        for (int shift = 12; shift >= 0; shift -= 4) {
            put(HEXADECIMAL.charAt(unit >> shift & 15));
        }
    }

    @Override
    @SuppressWarnings("deprecation")
    public String toString() {
        return new String(bytes, 0, 0, length);
    }
}
