import java.io.BufferedReader;
import java.io.InputStreamReader;
import java.util.List;
import net.sf.saxon.lib.Feature;
import net.sf.saxon.s9api.Processor;
import net.sf.saxon.s9api.QName;
import net.sf.saxon.s9api.SaxonApiException;
import net.sf.saxon.s9api.XQueryCompiler;
import net.sf.saxon.s9api.XQueryExecutable;

/**
 * Reads a query a line, with Java's escapes; for each prints a line: the string that it gives, or an error's code after
 * `error`, or after `early` where it is reported before the query is run. Given the word `plain`, it does not optimize;
 * given `read`, it reads the query and does not run it.
 */
public class Saxon {
    public static void main(String[] arguments) throws Exception {
        Processor processor = new Processor(false);
        boolean reads = List.of(arguments).contains("read");
        if (List.of(arguments).contains("plain")) {
            processor.setConfigurationProperty(Feature.OPTIMIZATION_LEVEL, "0");
        }
        XQueryCompiler compiler = processor.newXQueryCompiler();
        BufferedReader lines = new BufferedReader(new InputStreamReader(System.in));
        for (String line = lines.readLine(); line != null; line = lines.readLine()) {
            System.out.println(answer(compiler, line.translateEscapes(), reads));
        }
    }

    static String answer(XQueryCompiler compiler, String query, boolean reads) {
        try {
            XQueryExecutable compiled = compiler.compile(query);
            if (reads) {
                return "read";
            }
            try {
                return compiled.load().evaluate().toString();
            } catch (SaxonApiException exception) {
                return "error " + code(exception);
            }
        } catch (SaxonApiException exception) {
            return "early " + code(exception);
        } catch (RuntimeException | StackOverflowError broken) {
            return "broken " + broken.getClass().getSimpleName();
        }
    }

    static String code(SaxonApiException exception) {
        QName name = exception.getErrorCode();
        return name == null ? "unnamed" : name.getLocalName();
    }
}
