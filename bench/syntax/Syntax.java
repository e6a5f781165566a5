import com.sun.source.util.JavacTask;
import java.io.File;
import java.util.Arrays;
import java.util.List;
import java.util.Locale;
import javax.tools.Diagnostic;
import javax.tools.DiagnosticCollector;
import javax.tools.JavaCompiler;
import javax.tools.JavaFileObject;
import javax.tools.StandardJavaFileManager;
import javax.tools.ToolProvider;

/** Prints for each file its name and the key of the first syntax error that javac's parser reports, or "fine". */
public class Syntax {
    public static void main(String[] paths) throws Exception {
        JavaCompiler compiler = ToolProvider.getSystemJavaCompiler();
        StandardJavaFileManager files = compiler.getStandardFileManager(null, Locale.ROOT, null);
        for (String path : paths) {
            DiagnosticCollector<JavaFileObject> found = new DiagnosticCollector<>();
            JavacTask task = (JavacTask) compiler.getTask(null, files, found, List.of("--release", "8", "-Xlint:-options"), null, files.getJavaFileObjects(path));
            task.parse();
            String answer = "fine";
            for (Diagnostic<?> each : found.getDiagnostics()) {
                if (each.getKind() == Diagnostic.Kind.ERROR) {
                    answer = each.getCode() + " " + each.getPosition();
                    break;
                }
            }
            System.out.println(new File(path).getName() + " " + answer);
        }
    }
}
