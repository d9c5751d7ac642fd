package nutrameza.tests;

import java.lang.reflect.InvocationTargetException;
import java.lang.reflect.Method;
import java.lang.reflect.Modifier;
import java.util.Arrays;
import java.util.Comparator;
import java.util.Locale;

/**
 * Runs the tests of the classes that are named: each public method without a parameter is one. A line for each, as the
 * shell tests print theirs; the last line is 'N passed, M failed'.
 */
public final class Run {
    private static int passed;
    private static int failed;

    private Run() {
    }

    public static void main(String[] names) throws Exception {
        for (String name : names) {
            Class<?> tests = Class.forName(name);
            Method[] methods = tests.getDeclaredMethods();
            Arrays.sort(methods, Comparator.comparing(Method::getName));
            for (Method method : methods) {
                if (method.getParameterCount() == 0 && Modifier.isPublic(method.getModifiers())) {
                    run(tests, method);
                }
            }
        }
        System.out.println(passed + " passed, " + failed + " failed");
        System.exit(passed > 0 && failed == 0 ? 0 : 1);
    }

    private static void run(Class<?> tests, Method method) throws Exception {
        String words = tests.getSimpleName().replace("Test", "") + ": "
            + method.getName().replaceAll("([A-Z])", " $1").toLowerCase(Locale.ROOT);
        try {
            method.invoke(tests.getDeclaredConstructor().newInstance());
            passed++;
            System.out.println("ok      " + words);
        } catch (InvocationTargetException wrong) {
            failed++;
            System.out.println("FAILED  " + words);
            wrong.getCause().printStackTrace(System.out);
        }
    }
}
