package nutrameza.tests;

import java.nio.file.Files;
import java.nio.file.Path;
import nutrameza.Policy;
import nutrameza.Store;

/** Loads a library and says how that went: the argument is 'kit', 'store', or 'twice' for the kit tried again. */
public final class Loading {
    private Loading() {
    }

    public static void main(String[] words) throws Exception {
        if (words[0].equals("twice")) {
            tried("kit");
        }
        tried(words[0]);
    }

    private static void tried(String which) throws Exception {
        try {
            if (which.equals("store")) {
                Store.connect("sqlite:" + words());
            } else {
                Policy.of(new byte[0]).check();
            }
            String maps = Files.readString(Path.of("/proc/self/maps"));
            System.out.println("loaded" + (maps.contains("libsqlite3") || maps.contains("libpq") ? " with databases" : ""));
        } catch (UnsatisfiedLinkError wrong) {
            System.out.println("not loaded: " + wrong.getMessage());
        }
    }

    private static String words() throws Exception {
        Path file = Files.createTempFile("loading", ".db");
        file.toFile().deleteOnExit();
        return file.toString();
    }
}
