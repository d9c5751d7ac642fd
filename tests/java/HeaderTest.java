package nutrameza;

import static nutrameza.tests.Check.same;
import static nutrameza.tests.Check.that;
import static nutrameza.tests.Check.thrown;

import java.lang.reflect.Field;
import java.lang.reflect.Method;
import java.lang.reflect.Modifier;
import java.nio.ByteBuffer;
import java.nio.file.Files;
import java.nio.file.Path;
import java.util.ArrayList;
import java.util.List;
import java.util.Locale;
import java.util.Map;
import java.util.TreeMap;
import java.util.function.ToIntFunction;
import java.util.regex.Matcher;
import java.util.regex.Pattern;
import java.util.stream.Collectors;

/** Names, numbers, words and parameters are the C headers'. The property nutrameza.root names the repository. */
public final class HeaderTest {
    private static String file(String name) throws Exception {
        return Files.readString(Path.of(System.getProperty("nutrameza.root"), name));
    }

    /** The names and numbers that a pattern finds in a text. */
    private static Map<String, Integer> found(String pattern, String text) {
        Map<String, Integer> all = new TreeMap<>();
        Matcher matcher = Pattern.compile(pattern, Pattern.MULTILINE).matcher(text);
        while (matcher.find()) {
            all.put(matcher.group(1), Integer.valueOf(matcher.group(2)));
        }
        return all;
    }

    private static <E extends Enum<E>> Map<String, Integer> ours(E[] values, ToIntFunction<E> number) {
        Map<String, Integer> all = new TreeMap<>();
        for (E value : values) {
            all.put(value.name(), number.applyAsInt(value));
        }
        return all;
    }

    /** The text of an enum of a header. */
    private static String enumeration(String header, String name) {
        int from = header.indexOf("enum " + name + " {");
        return header.substring(from, header.indexOf("};", from));
    }

    public void limitsAndSizes() throws Exception {
        Map<String, Integer> all = new TreeMap<>();
        for (Field field : Limits.class.getFields()) {
            all.put(field.getName(), field.getInt(null));
        }
        Map<String, Integer> theirs = found("^#define NUTRAMEZA_(?!VERSION)([A-Z_]+) (\\d+)$", file("include/nutrameza.h"));
        same(theirs, all);
        that(all.size() == 21, all.keySet());
    }

    public void refusalsAndWords() throws Exception {
        String kit = enumeration(file("include/nutrameza.h"), "nutrameza_number");
        String store = enumeration(file("include/nutrameza_store.h"), "nutrameza_store_number");
        Map<String, Integer> theirs = found("NUTRAMEZA_REFUSED_([A-Z_]+) = (\\d+)", kit);
        same(24, theirs.size());
        Map<String, Integer> told = found("NUTRAMEZA_STORE_([A-Z_]+) = (\\d+)", store);
        same(14, told.size());
        theirs.putAll(told);
        Map<String, Integer> all = ours(Refusal.values(), Refusal::number);
        all.remove("OTHER");
        all.putAll(ours(StoreException.Failure.values(), StoreException.Failure::number));
        all.put("USAGE", 138);
        same(theirs, all);
        for (Refusal one : Refusal.values()) {
            same(one, Refusal.of(one.number()));
        }
        same(Refusal.OTHER, Refusal.of(25));
        thrown(IllegalArgumentException.class, () -> Refusal.of(0));
        List<String> words = new ArrayList<>(List.of("done"));
        for (int number = 1; number <= 24; number++) {
            words.add(Refusal.of(number).word());
        }
        String header = file("include/nutrameza.h");
        int from = header.indexOf("words[] = {");
        Matcher matcher = Pattern.compile("\"([^\"]+)\"").matcher(header.substring(from, header.indexOf('}', from)));
        same(matcher.results().map(found -> found.group(1)).collect(Collectors.toList()), words);
    }

    public void aimsKindsAndChoices() throws Exception {
        String kit = file("include/nutrameza.h");
        same(found("NUTRAMEZA_([A-Z_]+) = (\\d)", enumeration(kit, "nutrameza_aim")), ours(Aim.values(), Aim::number));
        same(found("NUTRAMEZA_([A-Z_]+) = (\\d)", enumeration(kit, "nutrameza_exclusion_kind")), ours(ExclusionKind.values(), ExclusionKind::number));
        same(found("NUTRAMEZA_OBSTACLE_([A-Z_]+) = (\\d)", enumeration(kit, "nutrameza_obstacle_kind")), ours(ObstacleKind.values(), ObstacleKind::number));
        String store = enumeration(file("include/nutrameza_store.h"), "nutrameza_store_go_on");
        same(found("NUTRAMEZA_STORE_([A-Z_]+) = (\\d)", store), ours(GoOn.values(), GoOn::number));
        same(found("()NUTRAMEZA_STORE_TOKEN_BYTES (\\d+)", file("include/nutrameza_store.h")).get(""), Store.TOKEN_BYTES);
    }

    private static String camel(String name) {
        Matcher matcher = Pattern.compile("_([a-z])").matcher(name);
        return matcher.replaceAll(found -> found.group(1).toUpperCase(Locale.ROOT));
    }

    /** The parameters of a declaration, lengths left out: r a buffer that is read, w a written one, n a number. */
    private static String kinds(String parameters) {
        StringBuilder kinds = new StringBuilder();
        for (String one : parameters.split(",")) {
            String word = one.strip();
            if (!word.startsWith("size_t")) {
                kinds.append(word.startsWith("uint64_t") ? 'n' : word.startsWith("const") ? 'r' : 'w');
            }
        }
        return kinds.toString();
    }

    public void everyCallWithItsParameters() throws Exception {
        Matcher matcher = Pattern.compile("^uint64_t nutrameza_([a-z_]+)\\((.*?)\\)", Pattern.MULTILINE | Pattern.DOTALL).matcher(file("include/nutrameza.h"));
        List<String> theirs = new ArrayList<>();
        List<String> names = new ArrayList<>();
        while (matcher.find()) {
            theirs.add(matcher.group(1).toUpperCase(Locale.ROOT) + " " + kinds(matcher.group(2)));
            names.add(camel(matcher.group(1)) + " " + kinds(matcher.group(2)).replace('w', 'r'));
        }
        List<String> ours = new ArrayList<>();
        for (Call call : Call.values()) {
            ours.add(call.name() + " " + call.parameters);
        }
        same(theirs, ours);
        same(17, theirs.size());
        List<String> methods = new ArrayList<>();
        for (Method method : Kit.class.getMethods()) {
            if (method.getReturnType() == long.class && Modifier.isStatic(method.getModifiers()) && !method.getName().equals("extra")) {
                StringBuilder kinds = new StringBuilder(method.getName() + " ");
                for (Class<?> type : method.getParameterTypes()) {
                    kinds.append(type == ByteBuffer.class ? 'r' : 'n');
                }
                methods.add(kinds.toString());
            }
        }
        names.sort(null);
        methods.sort(null);
        same(names, methods);
    }

    public void everyFunctionOfTheStoreIsAMethod() throws Exception {
        Matcher matcher = Pattern.compile("^(?:uint64_t|void|const char \\*)\\s*nutrameza_store_([a-z_]+)\\(", Pattern.MULTILINE).matcher(file("include/nutrameza_store.h"));
        String source = file("java/native/store.c");
        List<String> missing = new ArrayList<>();
        List<String> methods = new ArrayList<>();
        for (Method method : Store.class.getMethods()) {
            methods.add(method.getName());
        }
        int count = 0;
        while (matcher.find()) {
            count++;
            that(source.contains("nutrameza_store_" + matcher.group(1) + "("), matcher.group(1));
            if (!methods.contains(camel(matcher.group(1)))) {
                missing.add(matcher.group(1));
            }
        }
        // close disconnects; a failure has error and word; verify has a watcher.
        same(List.of("disconnect", "error", "word_of", "verify_watched"), missing);
        same(27, count);
    }

    public void oneVersion() throws Exception {
        same(file("VERSION").strip(), Kit.version());
    }

    public void theFolderOfAPlatform() {
        same("linux-x86_64", Library.place("Linux", "amd64"));
        same("linux-aarch64", Library.place("Linux", "aarch64"));
        same("mac_os_x-x86_64", Library.place("Mac OS X", "x86_64"));
    }

    public void theNativeSideTakesNoOtherArguments() {
        Library.KIT.load();
        Object[] one = {new byte[8]};
        for (int call : new int[] {-1, 17, Call.OPEN.ordinal()}) {
            thrown(IllegalArgumentException.class, () -> KitNative.call(call, one, new int[] {0, 8}, 0, new long[0]));
        }
        thrown(ArrayIndexOutOfBoundsException.class, () -> KitNative.call(0, one, new int[] {0}, 0, new long[0]));
        thrown(ArrayIndexOutOfBoundsException.class, () -> KitNative.call(0, one, new int[] {4, 8}, 0, new long[0]));
    }
}
