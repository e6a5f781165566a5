import java.io.BufferedReader;
import java.io.File;
import java.io.InputStreamReader;
import java.nio.charset.StandardCharsets;
import java.nio.file.Files;
import java.util.ArrayList;
import java.util.Arrays;
import java.util.List;
import java.util.Locale;
import javax.tools.Diagnostic;
import javax.tools.DiagnosticCollector;
import javax.tools.JavaCompiler;
import javax.tools.JavaFileObject;
import javax.tools.StandardJavaFileManager;
import javax.tools.ToolProvider;

/** For each line of standard input, the paths of a project's files with blanks between: "accepts", or "refuses" with the
 *  first error in the order of paths and places. The class files go into the folder that is given. */
public class Verdicts {
    public static void main(String[] words) throws Exception {
        JavaCompiler compiler = ToolProvider.getSystemJavaCompiler();
        BufferedReader rows = new BufferedReader(new InputStreamReader(System.in, StandardCharsets.UTF_8));
        for (String row = rows.readLine(); row != null; row = rows.readLine()) {
            StandardJavaFileManager files = compiler.getStandardFileManager(null, Locale.ROOT, StandardCharsets.UTF_8);
            DiagnosticCollector<JavaFileObject> found = new DiagnosticCollector<>();
            List<String> options = List.of("--release", "8", "-Xlint:-options", "-proc:none", "-d", words[0]);
            List<String> paths = new ArrayList<>(Arrays.asList(row.split(" ")));
            compiler.getTask(null, files, found, options, null, files.getJavaFileObjectsFromStrings(paths)).call();
            Diagnostic<? extends JavaFileObject> first = null;
            for (Diagnostic<? extends JavaFileObject> each : found.getDiagnostics()) {
                if (each.getKind() == Diagnostic.Kind.ERROR && (first == null || order(each).compareTo(order(first)) < 0)) {
                    first = each;
                }
            }
            System.out.println(first == null ? "accepts" : "refuses " + first.getCode().replace("compiler.err.", "") + " " + place(first));
        }
    }

    static String order(Diagnostic<? extends JavaFileObject> each) {
        return each.getSource() == null ? "" : each.getSource().getName() + String.format(" %09d", each.getPosition());
    }

    static String place(Diagnostic<? extends JavaFileObject> each) {
        return each.getSource() == null ? "nowhere" : new File(each.getSource().getName()).getName() + " " + each.getLineNumber() + ":" + each.getColumnNumber();
    }
}
