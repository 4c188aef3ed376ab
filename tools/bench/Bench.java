import java.time.Instant;
import java.time.ZoneOffset;
import java.util.Locale;

/**
 * Times String.format of one format and its values under Locale.ROOT, after a warm-up of two seconds.
 *
 * Arguments: the format, then the values: a letter (b Byte, i Integer, d Double, z Boolean, x String, t ZonedDateTime in UTC from nanoseconds since
 * 1970) and what it names. Prints three lines: the least nanoseconds for a call, Java's version, the text.
 */
public final class Bench {
    private static final long WARM_UP = 2_000_000_000L;
    private static final long REPETITION = 500_000L;
    private static final int REPETITIONS = 200;

    private static long sum;

    public static void main(String[] arguments) {
        String format = arguments[0];
        Object[] values = new Object[arguments.length - 1];
        for (int i = 0; i < values.length; i++) {
            values[i] = value(arguments[i + 1]);
        }
        long calls = 1;
        long start = System.nanoTime();
        while (System.nanoTime() - start < WARM_UP) {
            long taken = time(format, values, calls);
            if (taken < REPETITION) {
                calls *= 2;
            } else if (taken > 4 * REPETITION && calls > 1) {
                calls /= 2;
            }
        }
        double least = Double.MAX_VALUE;
        for (int i = 0; i < REPETITIONS; i++) {
            least = Math.min(least, (double) time(format, values, calls) / calls);
        }
        if (sum == 0) {
            throw new IllegalStateException("nothing was formatted");
        }
        System.out.println(least);
        System.out.println(System.getProperty("java.version"));
        System.out.println(String.format(Locale.ROOT, format, values));
    }

    private static long time(String format, Object[] values, long calls) {
        long start = System.nanoTime();
        for (long i = 0; i < calls; i++) {
            String text = String.format(Locale.ROOT, format, values);
            sum += text.length() + text.charAt(0);
        }
        return System.nanoTime() - start;
    }

    private static Object value(String argument) {
        String named = argument.substring(1);
        switch (argument.charAt(0)) {
            case 'b':
                return Byte.valueOf(named);
            case 'i':
                return Integer.valueOf(named);
            case 'd':
                return Double.valueOf(named);
            case 'z':
                return Boolean.valueOf(named);
            case 'x':
                return named;
            case 't':
                return Instant.ofEpochSecond(0, Long.parseLong(named)).atZone(ZoneOffset.UTC);
            default:
                throw new IllegalArgumentException(argument);
        }
    }
}
