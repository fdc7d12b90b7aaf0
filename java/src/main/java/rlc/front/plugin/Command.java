package rlc.front.plugin;

import com.sun.source.util.JavacTask;
import java.io.IOException;
import java.io.PrintWriter;
import java.nio.charset.StandardCharsets;
import java.util.ArrayList;
import java.util.List;
import java.util.concurrent.Callable;
import javax.tools.Diagnostic;
import javax.tools.DiagnosticListener;
import javax.tools.JavaCompiler;
import javax.tools.JavaFileObject;
import javax.tools.StandardJavaFileManager;
import javax.tools.ToolProvider;
import picocli.CommandLine;
import rlc.front.reports.Summary;

/**
 * The command {@code rlc-java}: it analyses files as the compiler does, checks them, and writes no
 * class files.
 */
@CommandLine.Command(
    name = "rlc-java",
    sortOptions = false,
    description = "Looks for resources that may be left open in Java sources.",
    footer = {
      "",
      "Status: 0 all bodies were checked and nothing was found; 1 something was found;",
      "2 the compiler has errors;",
      "3 the words are wrong; 4 nothing was found, but some bodies were not checked."
    })
public final class Command implements Callable<Integer> {
  private static final int CLEAN = 0;
  private static final int FOUND = 1;
  private static final int COMPILER = 2;
  private static final int USAGE = 3;
  private static final int NOT_CHECKED = 4;

  @CommandLine.Option(names = "--help", usageHelp = true, description = "Tells the options.")
  private boolean help;

  @CommandLine.Option(names = "--error", description = "What is found are errors, not warnings.")
  private boolean error;

  @CommandLine.Option(names = "--strict",
      description = "A body that is not checked counts as found.")
  private boolean strict;

  @CommandLine.Option(names = "--skip", paramLabel = "REGEX",
      description = "Classes whose qualified names match are not checked.")
  private String skip;

  @CommandLine.Option(names = "--stubs", paramLabel = "FILE",
      description = "A stub file with annotations of libraries.")
  private List<String> stubs = new ArrayList<>();

  @CommandLine.Option(names = "--rlc", paramLabel = "FILE",
      description = "The program rlc, in place of the one in the jar.")
  private String engine;

  @CommandLine.Option(names = "--keep", paramLabel = "FOLDER",
      description = "Where the lowered program is kept.")
  private String kept;

  @CommandLine.Unmatched private List<String> rest = new ArrayList<>();

  /** Runs the command and ends with its status. */
  public static void main(String[] words) {
    System.exit(run(words));
  }

  /** Runs the command. */
  static int run(String... words) {
    CommandLine line = new CommandLine(new Command());
    line.setParameterExceptionHandler((exception, given) -> usage(exception.getMessage()));
    line.setExecutionExceptionHandler((exception, of, result) -> {
      if (exception instanceof IllegalArgumentException || exception
          instanceof IllegalStateException) {
        return usage(exception.getMessage());
      }
      throw exception;
    });
    return line.execute(words);
  }

  private static int usage(String message) {
    System.err.println("rlc-java: " + message);
    System.err.println(
        "usage: rlc-java [options] [options of javac] FILES; rlc-java --help tells the options");
    return USAGE;
  }

  @Override
  public Integer call() throws IOException {
    Options options = options();
    List<String> files = new ArrayList<>();
    List<String> javac = new ArrayList<>();
    for (String word : rest) {
      (word.endsWith(".java") ? files : javac).add(word);
    }
    if (files.isEmpty()) {
      return usage("no source files are named");
    }
    JavaCompiler compiler = ToolProvider.getSystemJavaCompiler();
    if (compiler == null) {
      return usage("this Java has no compiler: a JDK is needed");
    }
    Counting diagnostics = new Counting();
    try (StandardJavaFileManager manager =
        compiler.getStandardFileManager(diagnostics, null, StandardCharsets.UTF_8)) {
      JavacTask task = (JavacTask) compiler.getTask(new PrintWriter(System.err, true), manager,
          diagnostics, javac, null,
          manager.getJavaFileObjectsFromStrings(files));
      Session session = new Session(task, options);
      task.addTaskListener(session);
      task.analyze();
      return status(session.summary(), diagnostics);
    }
  }

  private Options options() {
    List<String> words = new ArrayList<>();
    if (error) {
      words.add("error");
    }
    if (strict) {
      words.add("strict");
    }
    if (skip != null) {
      words.add("skip=" + skip);
    }
    stubs.forEach(it -> words.add("stubs=" + it));
    if (engine != null) {
      words.add("rlc=" + engine);
    }
    if (kept != null) {
      words.add("keep=" + kept);
    }
    return Options.of(words.toArray(String[]::new));
  }

  private int status(Summary summary, Counting diagnostics) {
    if (diagnostics.compilerErrors > 0) {
      return COMPILER;
    }
    if (summary == null) {
      return NOT_CHECKED;
    }
    if (summary.obligations() > 0 || strict && summary.notChecked() > 0) {
      return FOUND;
    }
    return summary.notChecked() > 0 ? NOT_CHECKED : CLEAN;
  }

  /** Writes the compiler's messages, and counts the errors that are not of the check. */
  private static final class Counting implements DiagnosticListener<JavaFileObject> {
    private int compilerErrors;

    @Override
    public void report(Diagnostic<? extends JavaFileObject> it) {
      System.err.println(it);
      if (it.getKind() == Diagnostic.Kind.ERROR && !it.getMessage(null).startsWith("[rlc]")) {
        compilerErrors++;
      }
    }
  }
}
