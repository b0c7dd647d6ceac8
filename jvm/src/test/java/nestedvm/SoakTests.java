package nestedvm;

import static org.junit.jupiter.api.Assertions.assertEquals;
import static org.junit.jupiter.api.Assertions.assertTrue;

import java.io.IOException;
import java.util.ArrayList;
import java.util.List;
import java.util.Random;
import java.util.concurrent.ExecutorService;
import java.util.concurrent.Executors;
import java.util.concurrent.Future;
import java.util.concurrent.Semaphore;
import java.util.concurrent.TimeUnit;
import org.junit.jupiter.api.Assumptions;
import org.junit.jupiter.api.DisplayName;
import org.junit.jupiter.api.Test;

/** Many calls, and hostile ones. The property says how many: a tenth of it is called as programs, and ten times as much as functions. */
final class SoakTests {
    private static final int CALLS = Integer.getInteger("nested.soak", 2_000);
    private static final int THREADS = 8;

    /** The calls that are made at once, each beside a library: more have no room in 64 MB. */
    private static final int AT_ONCE = 2;

    private static final int EXIT = 1;
    private static final int MOST_CALL = 80;

    private static String echoed(Program program, String text) {
        return Texts.text(program.call("count", "echo").input(Texts.bytes(text)).run().output());
    }

    @Test
    @DisplayName("many calls one after the other")
    void oneThread() throws IOException {
        Program deeds = Guests.program("deeds");
        for (int i = 0; i < CALLS; i++) {
            assertEquals("1\n" + i, echoed(deeds, Integer.toString(i)));
        }
    }

    @Test
    @DisplayName("many calls in eight threads")
    void threads() throws Exception {
        ExecutorService pool = Executors.newFixedThreadPool(THREADS);
        try {
            inPool(pool);
        } finally {
            pool.shutdown();
            assertTrue(pool.awaitTermination(10, TimeUnit.MINUTES), "a call does not end");
        }
    }

    @Test
    @DisplayName("many calls in virtual threads")
    void virtualThreads() throws Exception {
        ExecutorService pool;
        try {
            pool = (ExecutorService) Executors.class.getMethod("newVirtualThreadPerTaskExecutor").invoke(null);
        } catch (ReflectiveOperationException none) {
            Assumptions.abort("this virtual machine has no virtual threads");
            return;
        }
        try {
            inPool(pool);
        } finally {
            pool.shutdown();
            assertTrue(pool.awaitTermination(10, TimeUnit.MINUTES), "a call does not end");
        }
    }

    private static void inPool(ExecutorService pool) throws Exception {
        Program deeds = Guests.program("deeds");
        Program functions = Guests.program("functions");
        Semaphore atOnce = new Semaphore(AT_ONCE);
        List<Future<String>> results = new ArrayList<>();
        for (int i = 0; i < CALLS / 10; i++) {
            String text = Integer.toString(i);
            results.add(pool.submit(() -> {
                atOnce.acquire();
                try (Library library = functions.call().library()) {
                    return echoed(deeds, text) + library.call(library.function("next"));
                } finally {
                    atOnce.release();
                }
            }));
        }
        for (int i = 0; i < results.size(); i++) {
            assertEquals("1\n" + i + "1", results.get(i).get());
        }
    }

    /** Words that are addresses of the program, borders of what there is, or anything. */
    private static int word(Random random, int room) {
        switch (random.nextInt(6)) {
            case 0:
                return room + random.nextInt(65_536);
            case 1:
                return random.nextInt(70) - 3;
            case 2:
                return 1 << random.nextInt(32);
            case 3:
                return 0x7FFF0000 + random.nextInt(0x20000);
            case 4:
                return random.nextInt(5000);
            default:
                return random.nextInt();
        }
    }

    @Test
    @DisplayName("hostile calls of the system are answered, or end the call")
    void hostile() throws IOException {
        Program program = Guests.program("syscalls");
        Random random = new Random(69);
        int ended = 0;
        SystemCalls calls = open(program);
        for (int i = 0; i < 10 * CALLS; i++) {
            int number = random.nextInt(MOST_CALL);
            try {
                calls.call(number == EXIT ? 0 : number, word(random, calls.room()), word(random, calls.room()), word(random, calls.room()));
            } catch (CallFailed failed) {
                ended++;
            } catch (IllegalStateException | IllegalArgumentException said) {
                calls.close();
                calls = open(program);
            }
            if (i % 1000 == 999) {
                calls.library().takeOutput();
                calls.library().takeErrorOutput();
                calls.close();
                calls = open(program);
            }
        }
        calls.close();
        assertTrue(ended < 10 * CALLS, "each call ended");
    }

    private static SystemCalls open(Program program) {
        return new SystemCalls(program.call().file("a", new byte[5000]).blocks(64).mostOutput(1_000_000).library());
    }
}
