import java.io.BufferedReader;
import java.io.InputStreamReader;
import java.lang.reflect.InvocationTargetException;
import java.lang.reflect.Method;
import java.util.HashMap;
import java.util.Map;

/** Reads lines of a class and calls, as `Random1 m0(3) log()`. Makes an object of the class and the calls, and prints the class and what
 * each call answers, up to the first that throws. */
public final class Calls {
    public static void main(String[] words) throws Exception {
        BufferedReader lines = new BufferedReader(new InputStreamReader(System.in));
        StringBuilder answers = new StringBuilder();
        for (String line = lines.readLine(); line != null; line = lines.readLine()) {
            String[] parts = line.split(" ");
            answers.append(parts[0]);
            call(parts, answers);
            answers.append('\n');
        }
        System.out.print(answers);
    }

    private static void call(String[] parts, StringBuilder answers) throws Exception {
        Class<?> of = Class.forName(parts[0]);
        Object it = of.getDeclaredConstructor().newInstance();
        Map<String, Method> methods = new HashMap<>();
        for (Method method : of.getDeclaredMethods()) {
            method.setAccessible(true);
            methods.put(method.getName(), method);
        }
        for (int i = 1; i < parts.length; i++) {
            int open = parts[i].indexOf('(');
            String argument = parts[i].substring(open + 1, parts[i].length() - 1);
            Method method = methods.get(parts[i].substring(0, open));
            try {
                Object answer = argument.isEmpty() ? method.invoke(it) : method.invoke(it, Integer.parseInt(argument));
                answers.append(" return ").append(answer);
            } catch (InvocationTargetException thrown) {
                answers.append(" trap ").append(thrown.getCause().getClass().getSimpleName());
                return;
            }
        }
    }
}
