import java.io.IOException;
import java.io.InputStream;
import java.nio.charset.StandardCharsets;
import java.nio.file.DirectoryStream;
import java.nio.file.Files;
import java.nio.file.Path;
import java.util.ArrayList;
import java.util.Enumeration;
import java.util.List;
import java.util.Map;
import java.util.TreeMap;
import java.util.regex.Matcher;
import java.util.regex.Pattern;
import java.util.zip.ZipEntry;
import java.util.zip.ZipFile;

/**
 * Looks up the quotations of the comments in {@code stubs/*.astub} in the sources of a JDK, and prints those that do not stand there.
 *
 * <pre>
 * java stubs/Quotes.java SRC.zip
 * </pre>
 *
 * A quotation in a class stands in the source of that class, of one that a stub file puts above it, or of one of its package.
 */
public final class Quotes {
    private static final Pattern CLASS = Pattern.compile("^public .*?(?:class|interface) ([\\w$]+)(.*)\\{");
    private static final Pattern QUOTED = Pattern.compile("\"([^\"]+)\"");
    private final ZipFile sources;
    private final Map<String, ZipEntry> entries = new TreeMap<>();
    private final Map<String, String> texts = new TreeMap<>();
    /** For each class the words of its line behind its name, which name those above it, with its package. */
    private final Map<String, String> heads = new TreeMap<>();

    private Quotes(ZipFile sources) {
        this.sources = sources;
        Enumeration<? extends ZipEntry> all = sources.entries();
        while (all.hasMoreElements()) {
            ZipEntry entry = all.nextElement();
            String inModule = entry.getName().substring(entry.getName().indexOf('/') + 1);
            entries.put(inModule.replace('/', '.'), entry);
        }
    }

    public static void main(String[] words) throws IOException {
        List<Path> files = new ArrayList<>();
        try (DirectoryStream<Path> found = Files.newDirectoryStream(Path.of("stubs"), "*.astub")) {
            found.forEach(files::add);
        }
        files.sort(null);
        try (ZipFile sources = new ZipFile(words[0])) {
            Quotes quotes = new Quotes(sources);
            for (Path file : files) {
                quotes.readHeads(file);
            }
            int[] counts = new int[2];
            for (Path file : files) {
                quotes.check(file, counts);
            }
            System.out.println(counts[0] + " quotations, " + counts[1] + " not found");
            System.exit(counts[1] == 0 ? 0 : 1);
        }
    }

    private static String packageOf(Path file) {
        return file.getFileName().toString().replaceAll("\\.astub$", "");
    }

    private void readHeads(Path file) throws IOException {
        Map<String, String> imports = new TreeMap<>();
        for (String line : Files.readAllLines(file)) {
            Matcher matcher = CLASS.matcher(line);
            if (line.startsWith("import ")) {
                String name = line.substring("import ".length(), line.length() - 1);
                imports.put(name.substring(name.lastIndexOf('.') + 1), name);
            } else if (matcher.find()) {
                StringBuilder above = new StringBuilder();
                for (String word : matcher.group(2).split("[ ,]+")) {
                    String own = packageOf(file) + "." + word;
                    above.append(imports.getOrDefault(word, entries.containsKey(own + ".java") ? own : word)).append(' ');
                }
                heads.put(packageOf(file) + "." + matcher.group(1), above.toString());
            }
        }
    }

    private void check(Path file, int[] counts) throws IOException {
        String in = packageOf(file);
        StringBuilder comment = new StringBuilder();
        int at = 0;
        for (String line : Files.readAllLines(file)) {
            at++;
            Matcher matcher = CLASS.matcher(line);
            if (line.strip().startsWith("//")) {
                comment.append(line.strip().substring(2));
            } else if (!line.startsWith("@InheritableMustCall")) {
                in = matcher.find() ? packageOf(file) + "." + matcher.group(1) : in;
                Matcher quoted = QUOTED.matcher(comment);
                while (quoted.find()) {
                    counts[0]++;
                    if (!stands(quoted.group(1), in)) {
                        counts[1]++;
                        System.out.println(file + ":" + at + ": not in " + in + ": " + quoted.group(1));
                    }
                }
                comment.setLength(0);
            }
        }
    }

    private boolean stands(String quoted, String in) throws IOException {
        if (text(in).contains(quoted)) {
            return true;
        }
        for (String above : heads.getOrDefault(in, "").split(" ")) {
            if (above.contains(".") && stands(quoted, above)) {
                return true;
            }
        }
        String ofPackage = in.substring(0, in.lastIndexOf('.'));
        for (String other : heads.keySet()) {
            if (other.startsWith(ofPackage + ".") && text(other).contains(quoted)) {
                return true;
            }
        }
        return false;
    }

    /** The source of a class without the marks of its comments. */
    private String text(String name) throws IOException {
        String outer = name.replaceAll("\\$.*", "");
        if (!texts.containsKey(outer)) {
            ZipEntry entry = entries.get(outer + ".java");
            String text = "";
            if (entry != null) {
                try (InputStream stream = sources.getInputStream(entry)) {
                    text = new String(stream.readAllBytes(), StandardCharsets.UTF_8);
                }
            }
            texts.put(outer, text.replaceAll("(?m)^\\s*\\*( |$)", " ").replaceAll("\\{@(?:code|literal)\\s+([^}]*)\\}", "$1")
                    .replaceAll("\\{@link(?:plain)?\\s+[^}\\s]+\\s+([^}]*)\\}", "$1").replaceAll("\\{@link(?:plain)?\\s+#?([^}\\s]*)\\}", "$1")
                    .replaceAll("</?[a-zA-Z][^>]*>", "").replaceAll("\\s+", " "));
        }
        return texts.get(outer);
    }
}
