package witness;

import com.sun.source.tree.CompilationUnitTree;
import com.sun.tools.javac.api.JavacTaskPool;
import java.io.ByteArrayInputStream;
import java.io.ByteArrayOutputStream;
import java.io.IOException;
import java.io.InputStream;
import java.io.OutputStream;
import java.net.URI;
import java.util.ArrayList;
import java.util.HashMap;
import java.util.LinkedHashMap;
import java.util.List;
import java.util.Map;
import java.util.Set;
import javax.tools.Diagnostic;
import javax.tools.DiagnosticCollector;
import javax.tools.FileObject;
import javax.tools.ForwardingJavaFileManager;
import javax.tools.JavaCompiler;
import javax.tools.JavaFileManager;
import javax.tools.JavaFileObject;
import javax.tools.SimpleJavaFileObject;
import javax.tools.StandardJavaFileManager;
import javax.tools.StandardLocation;
import javax.tools.ToolProvider;

/** {@code javac}, in memory. */
final class Compiler {
  private static final List<String> OPTIONS = List.of("-proc:none", "-nowarn", "-Xlint:none", "-g:none", "-Xmaxerrs", "1000",
      "-Xdiags:verbose", "-XDshould-stop.ifError=FLOW", "-implicit:none");
  /** One context of the compiler, used again: reading the machine's own classes anew is most of the time of a small program. */
  private JavacTaskPool pool = new JavacTaskPool(1);
  private Map<String, String> lastFiles = Map.of();
  private Map<String, byte[]> lastClasses = Map.of();
  private final JavaCompiler javac = ToolProvider.getSystemJavaCompiler();
  private final StandardJavaFileManager standard = javac.getStandardFileManager(null, null, null);

  private static final class Source extends SimpleJavaFileObject {
    private final String name;
    private final String text;

    Source(String name, String text) {
      super(URI.create("string:///" + name), Kind.SOURCE);
      this.name = name;
      this.text = text;
    }

    @Override
    public CharSequence getCharContent(boolean ignoreEncodingErrors) {
      return text;
    }
  }

  /** A class of the library, compiled before. */
  private static final class Compiled extends SimpleJavaFileObject {
    private final String name;
    private final byte[] bytes;

    Compiled(String name, byte[] bytes) {
      super(URI.create("mem:///" + name.replace('.', '/') + ".class"), Kind.CLASS);
      this.name = name;
      this.bytes = bytes;
    }

    @Override
    public InputStream openInputStream() {
      return new ByteArrayInputStream(bytes);
    }
  }

  /** Keeps what is compiled in memory, over the classes of a library. */
  private static final class Memory extends ForwardingJavaFileManager<JavaFileManager> {
    private final Map<String, byte[]> library;
    private final Map<String, byte[]> classes;

    Memory(JavaFileManager under, Map<String, byte[]> library, Map<String, byte[]> classes) {
      super(under);
      this.library = library;
      this.classes = classes;
    }

    @Override
    public Iterable<JavaFileObject> list(Location at, String folder, Set<JavaFileObject.Kind> kinds, boolean deep)
        throws IOException {
      if (at != StandardLocation.CLASS_PATH || !folder.equals("lib")) {
        return super.list(at, folder, kinds, deep);
      }
      List<JavaFileObject> found = new ArrayList<>();
      library.forEach((name, bytes) -> found.add(new Compiled(name, bytes)));
      return found;
    }

    @Override
    public String inferBinaryName(Location at, JavaFileObject file) {
      return file instanceof Compiled compiled ? compiled.name : super.inferBinaryName(at, file);
    }

    @Override
    public JavaFileObject getJavaFileForOutput(Location at, String name, JavaFileObject.Kind kind, FileObject sibling) {
      return new SimpleJavaFileObject(URI.create("mem:///" + name.replace('.', '/') + ".class"), kind) {
        @Override
        public OutputStream openOutputStream() {
          return new ByteArrayOutputStream() {
            @Override
            public void close() throws IOException {
              classes.put(name, toByteArray());
            }
          };
        }
      };
    }
  }

  /** The classes of a library, which is compiled where it is another than the last one. */
  Map<String, byte[]> library(Map<String, String> files) {
    if (!files.equals(lastFiles)) {
      Map<String, byte[]> classes = new LinkedHashMap<>();
      List<String> faults = compile(files, Map.of(), classes);
      if (!faults.isEmpty()) {
        throw new IllegalStateException("library: " + faults);
      }
      lastFiles = files;
      lastClasses = classes;
      // a context keeps what it read of a package
      pool = new JavacTaskPool(1);
    }
    return lastClasses;
  }

  private static List<Source> sources(Map<String, String> files) {
    List<Source> sources = new ArrayList<>();
    files.forEach((name, text) -> sources.add(new Source(name, text)));
    return sources;
  }

  private <T> T with(Map<String, String> files, Map<String, byte[]> library, DiagnosticCollector<JavaFileObject> told,
      JavacTaskPool.Worker<T> work) {
    boolean isWhole = false;
    try {
      T answer = pool.getTask(null, new Memory(standard, library, new HashMap<>()), told, OPTIONS, null, sources(files), work);
      isWhole = true;
      return answer;
    } finally {
      if (!isWhole) {
        pool = new JavacTaskPool(1);
      }
    }
  }

  private static List<String> faults(DiagnosticCollector<JavaFileObject> told) {
    List<String> lines = new ArrayList<>();
    for (Diagnostic<? extends JavaFileObject> one : told.getDiagnostics()) {
      if (one.getKind() == Diagnostic.Kind.ERROR) {
        String file = one.getSource() instanceof Source source ? source.name : "-";
        String text = one.getMessage(null).replace('\n', ' ');
        lines.add(String.join("\t", "error", file, "" + one.getLineNumber(), "" + one.getColumnNumber(),
            one.getCode().replace("compiler.err.", ""), text));
      }
    }
    return lines;
  }

  /** What the compiler refuses, and the forms outside the subset that the program has. */
  List<String> diagnose(Map<String, String> files, Map<String, byte[]> library) {
    DiagnosticCollector<JavaFileObject> told = new DiagnosticCollector<>();
    List<String> features = new ArrayList<>();
    try {
      with(files, library, told, task -> {
        List<CompilationUnitTree> units = new ArrayList<>();
        try {
          task.parse().forEach(units::add);
          task.analyze();
        } catch (IOException impossible) {
          throw new IllegalStateException(impossible);
        }
        return features.addAll(new Features(task).of(units));
      });
    } catch (RuntimeException | AssertionError crash) {
      // over erroneous types the compiler itself may fail; what it said before counts
      if (faults(told).isEmpty()) {
        throw crash;
      }
    }
    List<String> lines = faults(told);
    lines.addAll(features);
    return lines;
  }

  /** Compiles the files into the map; the answer is what the compiler refuses. */
  List<String> compile(Map<String, String> files, Map<String, byte[]> library, Map<String, byte[]> classes) {
    DiagnosticCollector<JavaFileObject> told = new DiagnosticCollector<>();
    // a context that is used again writes no classes
    javac.getTask(null, new Memory(standard, library, classes), told, OPTIONS, null, sources(files)).call();
    return faults(told);
  }
}
