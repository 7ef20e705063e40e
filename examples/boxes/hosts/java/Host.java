/* Boxes in Java, beside null pointers and deep recursion, which come by SIGSEGV, and threads. Once ../unpacker.c is built, in the folder
   above, with JAVA_HOME set:

       javac -d . java/Host.java
       gcc -shared -fPIC -I$JAVA_HOME/include -I$JAVA_HOME/include/linux java/host.c libunpacker.so -Wl,-rpath,'$ORIGIN' -o libhost.so
       java -cp . -Djava.library.path=. Host unpack.elf */
import java.util.function.Supplier;

class Host {
    static final int ROUNDS = 1000, THREADS = 4;
    int number;

    static native long open(String file);
    static native String unpack(long unpacker, String packed);

    static String result(Supplier<String> call) {
        try {
            return call.get();
        } catch (IllegalArgumentException thrown) {
            return thrown.getMessage();
        } catch (NullPointerException | StackOverflowError thrown) {
            return thrown.getClass().getSimpleName();
        }
    }

    static String numberOf(Host host) {
        return "" + host.number;
    }

    static String deep(int depth) {
        return deep(depth + 1) + depth;
    }

    /* How many answers of this thread's own box, and of Java, aren't as they have to be. */
    static int wrong(String file) {
        long own = open(file);
        int wrong = 0;
        for (int k = 0; k < ROUNDS; k++) {
            wrong += result(() -> unpack(own, "3a1b10c")).equals("aaabcccccccccc") ? 0 : 1;
            wrong += result(() -> numberOf(null)).equals("NullPointerException") ? 0 : 1;
            wrong += k % 100 != 0 || result(() -> unpack(own, "99999999a")).equals("faulted") ? 0 : 1;
            wrong += k % 100 != 0 || result(() -> deep(0)).equals("StackOverflowError") ? 0 : 1;
        }
        return wrong;
    }

    public static void main(String[] words) throws InterruptedException {
        System.loadLibrary("host");
        long unpacker = open(words[0]);
        for (String packed : new String[] {"3a1b10c", "99999999a", "1o1k"}) {
            System.out.println(packed + ": " + result(() -> unpack(unpacker, packed)));
        }
        int[] wrong = new int[THREADS];
        Thread[] threads = new Thread[THREADS];
        for (int k = 0; k < THREADS; k++) {
            int own = k;
            threads[k] = new Thread(() -> wrong[own] = wrong(words[0]));
            threads[k].start();
        }
        for (int k = 0; k < THREADS; k++) {
            threads[k].join();
            System.out.println("thread " + k + ", with null pointers and deep recursion: " + wrong[k] + " wrong");
        }
    }
}
