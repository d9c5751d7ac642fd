package nutrameza;

import java.io.IOException;
import java.io.InputStream;
import java.nio.file.Files;
import java.nio.file.Path;
import java.util.Locale;
import java.util.function.IntSupplier;

/**
 * A native library, loaded at the first call that needs it: from the folder that the property names, else from the jar,
 * which has it for Linux on x86-64. Loading is the only state that this package keeps beside its objects.
 */
final class Library {
    /** The property that names a folder with the libraries. */
    static final String PROPERTY = "nutrameza.library.path";
    /** The version that the jar was made for, which its libraries have too. */
    static final String VERSION = "1.0.0";

    /** The kit alone; it needs no other library. */
    static final Library KIT = new Library("libnutrameza_java.so", KitNative::version);
    /** The store; it needs those of its databases. */
    static final Library STORE = new Library("libnutrameza_store_java.so", StoreNative::version);

    private final String file;
    private final IntSupplier version;
    private volatile boolean loaded;

    private Library(String file, IntSupplier version) {
        this.file = file;
        this.version = version;
    }

    /** Loads it where it is not loaded; says why where it can't be. */
    void load() {
        if (loaded) {
            return;
        }
        synchronized (this) {
            if (!loaded) {
                String folder = System.getProperty(PROPERTY);
                if (folder == null) {
                    loadFromJar();
                } else {
                    loadFrom(folder);
                }
                fits();
                loaded = true;
            }
        }
    }

    private void loadFrom(String folder) {
        Path path = Path.of(folder, file).toAbsolutePath();
        if (!Files.isRegularFile(path)) {
            throw new UnsatisfiedLinkError(path + ": no such file, and the property " + PROPERTY + " names its folder");
        }
        System.load(path.toString());
    }

    /** A copy in a folder of its own that only this user may enter, deleted once it is loaded. */
    private void loadFromJar() {
        String place = place(System.getProperty("os.name", "?"), System.getProperty("os.arch", "?"));
        Path folder = null;
        try (InputStream in = Library.class.getResourceAsStream("/META-INF/native/" + place + "/" + file)) {
            if (in == null) {
                throw new UnsatisfiedLinkError("this jar has no " + file + " for " + place + elsewhere());
            }
            folder = Files.createTempDirectory("nutrameza");
            Path copy = folder.resolve(file);
            Files.copy(in, copy);
            System.load(copy.toString());
        } catch (IOException wrong) {
            throw told("it can't be copied out of the jar: " + wrong, wrong);
        } catch (UnsatisfiedLinkError wrong) {
            throw folder == null ? wrong : told(wrong.getMessage() + otherwise(), wrong);
        } finally {
            delete(folder);
        }
    }

    /** The folder in the jar for an operating system and a processor. */
    static String place(String system, String processor) {
        String name = system.toLowerCase(Locale.ROOT).replaceAll("[^a-z0-9]+", "_");
        return name + "-" + (processor.equals("amd64") ? "x86_64" : processor);
    }

    private static String elsewhere() {
        return "; -D" + PROPERTY + "=FOLDER names a folder that has one (docs/JAVA.md says how it is built)";
    }

    private static String otherwise() {
        return "; what it needs has to be installed, and where files of " + System.getProperty("java.io.tmpdir")
            + " may not be run, -D" + PROPERTY + "=FOLDER names a folder to load it from";
    }

    private static UnsatisfiedLinkError told(String words, Throwable cause) {
        UnsatisfiedLinkError error = new UnsatisfiedLinkError(words);
        error.initCause(cause);
        return error;
    }

    private void delete(Path folder) {
        if (folder == null) {
            return;
        }
        try {
            Files.deleteIfExists(folder.resolve(file));
            Files.delete(folder);
        } catch (IOException left) {
            folder.resolve(file).toFile().deleteOnExit();
            folder.toFile().deleteOnExit();
        }
    }

    private void fits() {
        int number = version.getAsInt();
        String found = number / 1000000 + "." + number / 1000 % 1000 + "." + number % 1000;
        if (!found.equals(VERSION)) {
            throw new UnsatisfiedLinkError(file + " is of version " + found + ", and this jar of " + VERSION);
        }
    }
}
