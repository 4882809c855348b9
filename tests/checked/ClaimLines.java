import java.io.FileOutputStream;
import java.io.IOException;
import java.io.PrintStream;

/** Notes a small run of a ring of 128 bytes by RunLog: ClaimLines FILE. The run is that of examples/runs/claims.run. */
public final class ClaimLines {
    private ClaimLines() {
    }

    public static void main(final String[] words) throws IOException {
        final RunLog first = new RunLog();
        first.claimed(1, 0, 7, 10);
        first.claimed(1, 48, 7, 4);
        first.aborted(48);
        first.committed(0, 4411);
        first.full(1, 16);
        first.claimed(1, 128, 7, 16);
        first.committed(128, 4412);
        final RunLog second = new RunLog();
        second.claimed(2, 24, 7, 12);
        second.committed(24, 4421);
        second.claimed(2, 64, 7, 16);
        second.committed(64, 4422);
        second.claimed(2, 88, 7, 16);
        second.committed(88, 4423);
        second.claimed(2, 152, 7, 3);
        final RunLog consumer = new RunLog();
        consumer.shown(0, 7, 10, 4411);
        consumer.head(24);
        consumer.shown(24, 7, 12, 4421);
        consumer.shown(-1, 7, 16, 4422);
        consumer.shown(88, 7, 16, 4423);
        consumer.shown(128, 7, 16, 4412);
        consumer.nothing();
        consumer.positions(152, 168);
        try (PrintStream out = new PrintStream(new FileOutputStream(words[0]))) {
            RunLog.writeRing(out, 128, 0, first, second, consumer);
        }
    }
}
