import java.io.BufferedReader;
import java.io.InputStreamReader;
import java.util.List;
import org.basex.core.Context;
import org.basex.query.QueryException;
import org.basex.query.QueryProcessor;

/**
 * Reads a query a line, with Java's escapes; for each prints a line: the string that it gives, or an error's code after
 * `error`, or after `early` where it is reported before the query is run. Given the word `read`, it reads the query and
 * does not run it.
 */
public class BaseX {
    public static void main(String[] arguments) throws Exception {
        Context context = new Context();
        boolean reads = List.of(arguments).contains("read");
        BufferedReader lines = new BufferedReader(new InputStreamReader(System.in));
        for (String line = lines.readLine(); line != null; line = lines.readLine()) {
            System.out.println(answer(context, line.translateEscapes(), reads));
        }
        context.close();
    }

    static String answer(Context context, String query, boolean reads) {
        try (QueryProcessor processor = new QueryProcessor(query, context)) {
            try {
                processor.parse();
                if (reads) {
                    return "read";
                }
                processor.compile();
            } catch (QueryException exception) {
                return "early " + new String(exception.qname().local());
            }
            return (String) processor.value().itemAt(0).toJava();
        } catch (QueryException exception) {
            return "error " + new String(exception.qname().local());
        } catch (RuntimeException | StackOverflowError broken) {
            return "broken " + broken.getClass().getSimpleName();
        }
    }
}
