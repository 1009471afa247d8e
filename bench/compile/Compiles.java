import java.io.IOException;
import java.io.OutputStream;
import java.lang.management.ManagementFactory;
import java.net.URI;
import java.nio.file.Files;
import java.nio.file.Path;
import java.util.List;
import javax.tools.FileObject;
import javax.tools.ForwardingJavaFileManager;
import javax.tools.JavaCompiler;
import javax.tools.JavaFileManager;
import javax.tools.JavaFileObject;
import javax.tools.SimpleJavaFileObject;
import javax.tools.ToolProvider;

/** Compiles each of the files many times in this process. Prints the least processor time of its thread, in nanoseconds. */
public class Compiles {
    /** What is compiled is thrown away. */
    static class Nowhere extends ForwardingJavaFileManager<JavaFileManager> {
        Nowhere(JavaFileManager files) { super(files); }

        @Override
        public JavaFileObject getJavaFileForOutput(Location at, String name, JavaFileObject.Kind kind, FileObject from) {
            return new SimpleJavaFileObject(URI.create("nowhere:///" + name), kind) {
                @Override
                public OutputStream openOutputStream() { return OutputStream.nullOutputStream(); }
            };
        }
    }

    static class Text extends SimpleJavaFileObject {
        final String text;

        Text(String text) { super(URI.create("text:///Text.java"), JavaFileObject.Kind.SOURCE); this.text = text; }

        @Override
        public CharSequence getCharContent(boolean lenient) { return text; }
    }

    /** The processor time of one compilation. */
    static long spent(JavaCompiler compiler, JavaFileManager files, String text) {
        long start = ManagementFactory.getThreadMXBean().getCurrentThreadCpuTime();
        if (!compiler.getTask(null, files, null, List.of("-proc:none"), null, List.of(new Text(text))).call()) {
            throw new IllegalStateException("not compiled");
        }
        return ManagementFactory.getThreadMXBean().getCurrentThreadCpuTime() - start;
    }

    public static void main(String[] words) throws IOException {
        int runs = Integer.parseInt(words[0]);
        JavaCompiler compiler = ToolProvider.getSystemJavaCompiler();
        JavaFileManager files = new Nowhere(compiler.getStandardFileManager(null, null, null));
        for (int i = 1; i < words.length; i++) {
            String text = Files.readString(Path.of(words[i]));
            long least = Long.MAX_VALUE;
            for (int run = 0; run < runs; run++) {
                least = Math.min(least, spent(compiler, files, text));
            }
            System.out.println(least);
        }
    }
}
