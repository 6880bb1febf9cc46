import java.lang.reflect.InvocationTargetException;
import java.lang.reflect.Method;
import org.junit.jupiter.api.Test;

/** Runs the tests of a class as JUnit would, and tells of each whether it passed: {@code RunTests CLASS}. */
public final class RunTests {
    private RunTests() {
    }

    public static void main(String[] words) throws ReflectiveOperationException {
        Class<?> tests = Class.forName(words[0]);
        for (Method test : tests.getDeclaredMethods()) {
            if (test.isAnnotationPresent(Test.class)) {
                try {
                    test.invoke(tests.getDeclaredConstructor().newInstance());
                    System.out.println(test.getName() + " passed");
                } catch (InvocationTargetException failed) {
                    System.out.println(test.getName() + " failed: " + failed.getCause());
                }
            }
        }
    }
}
