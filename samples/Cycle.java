/** The cycle logger of a school autoclave: the cycles of one unit, each under an identifier of its own. */
public final class Cycle {
    /** Where the records go. A second record under one identifier would replace the first. */
    interface Log {
        void write(String identifier, String record);
    }

    static final int HEATING = 0;
    static final int HOLDING = 1;
    static final int COOLING = 2;

    private final String serial;
    private final Log log;
    private int cycles;

    Cycle(String serial, Log log) {
        this.serial = serial;
        this.log = log;
    }

    /** The phase in words. Its numbers lie side by side, so it becomes a tableswitch. */
    static String phase(int phase) {
        switch (phase) {
            case HEATING:
                return "heating";
            case HOLDING:
                return "holding";
            case COOLING:
                return "cooling";
            default:
                return "unknown";
        }
    }

    /** The minutes that a load is held at so many degrees. Its keys lie apart, so it becomes a lookupswitch. */
    static int minutes(int degrees) {
        switch (degrees) {
            case 121:
                return 15;
            case 134:
                return 3;
            default:
                return Integer.MAX_VALUE; // no such programme: never held long enough
        }
    }

    /** Whether no reading, in tenths of a degree, fell below the least. */
    static boolean held(int[] readings, int least) {
        for (int reading : readings) {
            if (reading < least) {
                return false;
            }
        }
        return true;
    }

    /** Logs a cycle that ended in a phase, with a reading for each minute, and returns its identifier. */
    String next(int phase, int degrees, int[] readings) {
        cycles += 1;
        String identifier = serial + "-" + cycles;
        boolean sterile = phase == COOLING && readings.length >= minutes(degrees) && held(readings, degrees * 10);
        log.write(identifier, phase(phase) + (sterile ? ", sterile" : ", not sterile"));
        return identifier;
    }
}
