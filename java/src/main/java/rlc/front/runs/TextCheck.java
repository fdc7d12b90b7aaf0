package rlc.front.runs;

import com.sun.source.util.JavacTask;
import java.io.IOException;
import java.net.URI;
import java.util.ArrayList;
import java.util.List;
import java.util.Set;
import javax.tools.Diagnostic;
import javax.tools.DiagnosticCollector;
import javax.tools.JavaCompiler;
import javax.tools.JavaFileObject;
import javax.tools.SimpleJavaFileObject;
import javax.tools.ToolProvider;
import rlc.front.output.Skeleton;
import rlc.front.output.SkeletonFile;

/**
 * Lets the compiler read the lowered text before {@code rlc} does. It tells all errors of types at
 * once, where {@code rlc} ends with the first; a body with one is a fault of the front and is not
 * checked.
 */
public final class TextCheck {
  /**
   * What {@code rlc} does not ask of a program: whether each final field is assigned once, and
   * whether a caught exception can be thrown.
   */
  private static final Set<String> NOT_ASKED = Set.of(
      "compiler.err.except.never.thrown.in.try",
      "compiler.err.var.might.not.have.been.initialized",
      "compiler.err.var.might.already.be.assigned",
      "compiler.err.var.might.be.assigned.in.loop",
      "compiler.err.var.not.initialized.in.default.constructor");

  private static final String ANNOTATIONS =
      """
      package p;
      import static java.lang.annotation.ElementType.*;
      import java.lang.annotation.Target;
      @Target({METHOD, CONSTRUCTOR, PARAMETER, FIELD})
      @interface Owning { }
      @Target({METHOD, CONSTRUCTOR, PARAMETER, FIELD})
      @interface NotOwning { }
      @Target({METHOD, CONSTRUCTOR, PARAMETER, TYPE_USE})
      @interface MustCallAlias { }
      @interface InheritableMustCall { String[] value(); }
      @interface MustCall { String[] value(); }
      @interface CalledMethods { String[] value(); }
      @interface CreatesMustCallFor { String value(); }
      @interface EnsuresCalledMethods { String[] value(); String[] methods(); }
      @interface EnsuresCalledMethodsOnException { String[] value(); String[] methods(); }
      """;

  /**
   * An error in the lowered text.
   *
   * @param file its file
   * @param line its line
   * @param message what the compiler says
   */
  public record TextError(String file, int line, String message) {}

  private TextCheck() {}

  /** The errors of a lowered program. */
  public static List<TextError> errorsOf(Skeleton skeleton) throws IOException {
    JavaCompiler compiler = ToolProvider.getSystemJavaCompiler();
    if (compiler == null) {
      return List.of();
    }
    List<JavaFileObject> sources = new ArrayList<>();
    sources.add(new Source("Annotations.java", ANNOTATIONS));
    sources.add(new Source("Stub.java", skeleton.stub().javaFile()));
    for (SkeletonFile it : skeleton.files()) {
      sources.add(new Source(it.name(), it.text().toString()));
    }
    DiagnosticCollector<JavaFileObject> diagnostics = new DiagnosticCollector<>();
    List<String> options = List.of("-proc:none", "-nowarn", "-Xlint:none", "-Xmaxerrs", "1000000");
    JavacTask task = (JavacTask) compiler.getTask(null, null, diagnostics, options, null, sources);
    task.analyze();
    List<TextError> found = new ArrayList<>();
    for (Diagnostic<? extends JavaFileObject> it : diagnostics.getDiagnostics()) {
      if (it.getKind() == Diagnostic.Kind.ERROR && !NOT_ASKED.contains(it.getCode())) {
        String file = it.getSource() == null ? "" : it.getSource().getName().replaceFirst("^/", "");
        found.add(new TextError(file, (int) it.getLineNumber(),
            it.getMessage(null).replaceAll("\\s+", " ")));
      }
    }
    return found;
  }

  private static final class Source extends SimpleJavaFileObject {
    private final String text;

    Source(String name, String text) {
      super(URI.create("string:///" + name), Kind.SOURCE);
      this.text = text;
    }

    @Override
    public CharSequence getCharContent(boolean ignoreEncodingErrors) {
      return text;
    }
  }
}
