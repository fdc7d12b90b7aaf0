package rlc.front;

import com.sun.source.util.JavacTask;
import java.io.IOException;
import java.io.StringWriter;
import java.net.URI;
import java.nio.file.Path;
import java.util.ArrayList;
import java.util.List;
import java.util.Map;
import javax.tools.Diagnostic;
import javax.tools.DiagnosticCollector;
import javax.tools.JavaCompiler;
import javax.tools.JavaFileObject;
import javax.tools.SimpleJavaFileObject;
import javax.tools.ToolProvider;
import rlc.front.plugin.Options;
import rlc.front.plugin.Session;
import rlc.front.reports.Summary;

/** Runs the front over source texts, as the command does. */
final class Front {
  private final DiagnosticCollector<JavaFileObject> diagnostics = new DiagnosticCollector<>();
  private final Summary summary;

  private Front(Map<String, String> sources, List<String> javac, List<String> words) {
    JavaCompiler compiler = ToolProvider.getSystemJavaCompiler();
    JavacTask task = (JavacTask) compiler.getTask(new StringWriter(), null, diagnostics, javac,
        null, files(sources));
    List<String> options = new ArrayList<>(words);
    if (words.stream().noneMatch(it -> it.startsWith("rlc="))) {
      options.add("rlc=" + engine());
    }
    Session session = new Session(task, Options.of(options.toArray(String[]::new)));
    task.addTaskListener(session);
    try {
      task.analyze();
    } catch (IOException e) {
      throw new AssertionError(e);
    }
    summary = session.summary();
  }

  /** Sources in memory. */
  static List<JavaFileObject> files(Map<String, String> sources) {
    List<JavaFileObject> files = new ArrayList<>();
    sources.forEach((name, text) -> files.add(new Source(name, text)));
    return files;
  }

  /** The program rlc that the tests use. */
  static Path engine() {
    return Path.of(System.getenv("RLC_ENGINE"));
  }

  /** Runs over files, given as names and texts, with options of the front. */
  static Front over(Map<String, String> sources, String... words) {
    return new Front(sources, List.of("-proc:none"), List.of(words));
  }

  /** Runs over files with options of the compiler, too. */
  static Front over(Map<String, String> sources, List<String> javac, String... words) {
    return new Front(sources, javac, List.of(words));
  }

  /** The counts, or null where nothing was judged. */
  Summary summary() {
    return summary;
  }

  /** All messages of the compiler and the front. */
  List<Diagnostic<? extends JavaFileObject>> messages() {
    return diagnostics.getDiagnostics();
  }

  /** The findings as {@code FILE:LINE}, sorted, each once. */
  List<String> places() {
    return diagnostics.getDiagnostics().stream()
        .filter(it -> it.getMessage(null).startsWith("[rlc]")
            && !it.getMessage(null).contains(" is not checked: "))
        .map(it -> it.getSource().getName().replaceFirst("^/", "") + ":" + it.getLineNumber())
        .distinct()
        .sorted()
        .toList();
  }

  /** The files of bodies that were not checked. */
  List<String> filesNotChecked() {
    return diagnostics.getDiagnostics().stream()
        .filter(it -> it.getMessage(null).contains(" is not checked: "))
        .map(it -> it.getSource().getName().replaceFirst("^/", ""))
        .toList();
  }

  /** The reasons why bodies were not checked. */
  List<String> notChecked() {
    return diagnostics.getDiagnostics().stream()
        .map(it -> it.getMessage(null))
        .filter(it -> it.contains(" is not checked: "))
        .toList();
  }

  private static final class Source extends SimpleJavaFileObject {
    private final String text;

    Source(String name, String text) {
      super(URI.create("string:///" + name), Kind.SOURCE);
      this.text = text;
    }

    @Override
    public CharSequence getCharContent(boolean ignoreEncodingErrors) {
      return text;
    }
  }
}
