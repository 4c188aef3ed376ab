import java.io.IOException;
import java.nio.charset.StandardCharsets;
import java.time.Instant;
import java.time.ZoneId;
import java.time.ZonedDateTime;
import java.util.ArrayList;
import java.util.Arrays;
import java.util.Formatter;
import java.util.List;
import java.util.Locale;

/**
 * Answers formats with java.util.Formatter under Locale.ENGLISH, one request and one answer a line. (Under Locale.ROOT, Java 17 prints short names
 * of months and days for the long ones.)
 *
 * A request is the format and its values, with a tab between them. An answer is '=' and the text, or '!' and the simple name of the exception.
 * Bytes of the format and of texts outside 0x20 to 0x7e, and the backslash, stand as \HH. A value is a letter and what it names:
 * b s i l and a decimal number (Byte, Short, Integer, Long), d and 16 hexadecimal digits (Double by its
 * bits), z and t or f (Boolean), x and a text in UTF-8 (String), y and any bytes (String with one character for each byte, those from 0x80 on
 * as U+E080 to U+E0FF, which have no capitals), u and a decimal number (ZonedDateTime, nanoseconds since 1970 in the zone named UTC, whose name
 * %tZ and %tc print; that of ZoneOffset.UTC is Z), n (null).
 */
public final class Answers {
    private static final ZoneId UTC = ZoneId.of("UTC");
    private static final long SECOND = 1_000_000_000;

    // Arrays of our own: each byte through a stream takes a lock, which costs more than the byte.
    private final byte[] input = new byte[1 << 16];
    private int inputAt = 0;
    private int inputEnd = 0;
    private final byte[] output = new byte[1 << 16];
    private int outputEnd = 0;
    private byte[] field = new byte[1 << 12];
    private int fieldEnd = 0;

    public static void main(String[] arguments) throws IOException {
        Answers answers = new Answers();
        while (answers.answerLine()) {
        }
        answers.flush();
    }

    /** Answers the next line; false at the end of the input. */
    private boolean answerLine() throws IOException {
        int end = readField();
        if (end < 0) {
            return false;
        }
        String format = fieldText();
        List<Object> values = new ArrayList<>();
        while (end == '\t') {
            end = readField();
            values.add(value());
        }
        StringBuilder text = new StringBuilder();
        try {
            new Formatter(text, Locale.ENGLISH).format(format, values.toArray());
            put('=');
            write(text.toString().getBytes(StandardCharsets.UTF_8));
        } catch (RuntimeException refusal) {
            put('!');
            write(refusal.getClass().getSimpleName().getBytes(StandardCharsets.UTF_8));
        }
        put('\n');
        return true;
    }

    /** Reads one field into {@code field} and gives the byte behind it, or -1 at the end of the input. */
    private int readField() throws IOException {
        fieldEnd = 0;
        while (true) {
            int next = read();
            switch (next) {
                case -1, '\t', '\n' -> {
                    return next;
                }
                case '\\' -> {
                    int high = Character.digit(read(), 16);
                    add(16 * high + Character.digit(read(), 16));
                }
                default -> add(next);
            }
        }
    }

    private void add(int one) {
        if (fieldEnd == field.length) {
            field = Arrays.copyOf(field, 2 * fieldEnd);
        }
        field[fieldEnd++] = (byte) one;
    }

    private String fieldText() {
        return new String(field, 0, fieldEnd, StandardCharsets.UTF_8);
    }

    private Object value() {
        String whole = fieldText();
        String rest = whole.substring(1);
        return switch (whole.charAt(0)) {
            case 'b' -> Byte.valueOf(rest);
            case 's' -> Short.valueOf(rest);
            case 'i' -> Integer.valueOf(rest);
            case 'l' -> Long.valueOf(rest);
            case 'd' -> Double.longBitsToDouble(Long.parseUnsignedLong(rest, 16));
            case 'z' -> rest.equals("t");
            case 'x' -> rest;
            case 'y' -> bytesAsCharacters();
            case 'u' -> timestamp(Long.parseLong(rest));
            case 'n' -> null;
            default -> throw new IllegalStateException(whole);
        };
    }

    private static ZonedDateTime timestamp(long nanos) {
        return ZonedDateTime.ofInstant(Instant.ofEpochSecond(Math.floorDiv(nanos, SECOND), Math.floorMod(nanos, SECOND)), UTC);
    }

    private String bytesAsCharacters() {
        StringBuilder text = new StringBuilder();
        for (int i = 1; i < fieldEnd; i++) {
            text.append(field[i] >= 0 ? (char) field[i] : (char) (0xe000 + (field[i] & 0xff)));
        }
        return text.toString();
    }

    private void write(byte[] bytes) {
        for (byte one : bytes) {
            if (one >= 0x20 && one <= 0x7e && one != '\\') {
                put(one);
            } else {
                put('\\');
                put(Character.forDigit(one >> 4 & 15, 16));
                put(Character.forDigit(one & 15, 16));
            }
        }
    }

    /** The next byte of the input, or -1 at its end. */
    private int read() throws IOException {
        if (inputAt == inputEnd) {
            inputAt = 0;
            inputEnd = System.in.read(input);
            if (inputEnd <= 0) {
                inputEnd = 0;
                return -1;
            }
        }
        return input[inputAt++] & 0xff;
    }

    private void put(int one) {
        if (outputEnd == output.length) {
            flush();
        }
        output[outputEnd++] = (byte) one;
    }

    private void flush() {
        System.out.write(output, 0, outputEnd);
        System.out.flush();
        outputEnd = 0;
    }
}
