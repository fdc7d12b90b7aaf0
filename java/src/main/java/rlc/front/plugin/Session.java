package rlc.front.plugin;

import com.sun.source.tree.ClassTree;
import com.sun.source.tree.CompilationUnitTree;
import com.sun.source.tree.Tree;
import com.sun.source.util.JavacTask;
import com.sun.source.util.TaskEvent;
import com.sun.source.util.TaskListener;
import java.io.IOException;
import java.util.ArrayList;
import java.util.LinkedHashSet;
import java.util.List;
import java.util.Map;
import java.util.Set;
import javax.lang.model.element.Element;
import javax.lang.model.element.TypeElement;
import javax.tools.Diagnostic;
import rlc.front.lowering.ClassLowering;
import rlc.front.lowering.LoweredClass;
import rlc.front.lowering.Program;
import rlc.front.project.SourceBody;
import rlc.front.project.Suppression;
import rlc.front.reports.Fault;
import rlc.front.reports.Finding;
import rlc.front.reports.Summary;
import rlc.front.reports.Wording;
import rlc.front.runs.Checker;
import rlc.front.runs.Engine;
import rlc.front.runs.RunException;
import rlc.front.stubs.StubSyntaxException;
import rlc.front.stubs.Stubs;

/**
 * A compilation that is checked. Each class is lowered when the compiler has analysed it, before
 * its tree is rewritten; when all are, the lowered program is judged, and what is found is told by
 * the compiler.
 */
public final class Session implements TaskListener {
  private static final int MOST_OF_ALL = 20;

  private final JavacTask task;
  private final Options options;
  private final Set<String> expected = new LinkedHashSet<>();
  private final List<LoweredClass> classes = new ArrayList<>();
  private final List<SourceBody> bodies = new ArrayList<>();
  private final Suppression suppression;
  private Program program;
  private CompilationUnitTree anyUnit;
  private long nanoseconds;
  private boolean finished;
  private boolean failed;
  private Summary summary;

  /** Of a compilation, with options. */
  public Session(JavacTask task, Options options) {
    this.task = task;
    this.options = options;
    this.suppression = new Suppression(options.skip());
  }

  /** The counts of the run, or null where there was none. */
  public Summary summary() {
    return summary;
  }

  @Override
  public void finished(TaskEvent event) {
    long start = System.nanoTime();
    switch (event.getKind()) {
      case ENTER -> entered(event.getCompilationUnit());
      case ANALYZE -> analyzed(event);
      case COMPILATION -> ended();
      default -> {
        return;
      }
    }
    nanoseconds += System.nanoTime() - start;
    if (event.getKind() == TaskEvent.Kind.ANALYZE && expected.isEmpty() && !finished) {
      judge();
    }
  }

  private void entered(CompilationUnitTree unit) {
    if (unit == null || !ready(unit)) {
      return;
    }
    for (Tree it : unit.getTypeDecls()) {
      if (it instanceof ClassTree tree && program.attribution().elementOf(unit, tree)
          instanceof TypeElement type) {
        expected.add(type.getQualifiedName().toString());
        program.owners().addSource(type, tree);
        program.annotations().addNamesOf(type);
      }
    }
  }

  private boolean ready(CompilationUnitTree unit) {
    if (program == null && !finished) {
      anyUnit = unit;
      try {
        Stubs stubs = new Stubs();
        stubs.addBundled();
        for (var path : options.stubs()) {
          stubs.addFile(path);
        }
        program = new Program(task, stubs);
      } catch (IOException | StubSyntaxException e) {
        finished = true;
        tell(Diagnostic.Kind.ERROR, "[rlc] a stub file cannot be read, and nothing is checked: "
            + e.getMessage(), unit, unit);
      }
    }
    return program != null;
  }

  private void analyzed(TaskEvent event) {
    TypeElement type = event.getTypeElement();
    CompilationUnitTree unit = event.getCompilationUnit();
    if (program == null || type == null || unit == null
        || !expected.remove(type.getQualifiedName().toString())) {
      return;
    }
    for (Tree it : unit.getTypeDecls()) {
      if (it instanceof ClassTree tree
          && type.equals(program.attribution().elementOf(unit, tree))) {
        ClassLowering lowering = new ClassLowering(program, unit, suppression);
        lowering.lower(tree);
        classes.addAll(lowering.classes());
        bodies.addAll(lowering.bodies());
      }
    }
  }

  /** Where the compiler ended before it had analysed all classes. */
  private void ended() {
    if (!finished && program != null) {
      finished = true;
      System.err.println(
          "rlc: nothing was checked, since the compiler did not get through all classes");
    }
  }

  private void judge() {
    finished = true;
    long start = System.nanoTime();
    List<Fault> faults = List.of();
    try (Engine engine = new Engine(options.engine());
        Progress shown = new Progress(bodies.size())) {
      faults = new DeepStack<>(
          () -> new Checker(program, classes, engine, options.kept()).check()).run();
    } catch (IOException | RunException e) {
      fail(e.getMessage());
    } catch (RuntimeException | StackOverflowError e) {
      fail("the front failed: " + e);
    }
    int suppressed = 0;
    int told = 0;
    Wording wording = new Wording(program.attribution().trees());
    for (Finding it : Finding.group(faults)) {
      if (suppression.covers(it.place().tree())) {
        suppressed++;
      } else {
        told++;
        tell(kind(options.isError()), wording.messageOf(it), it.place().tree(), it.body().unit());
      }
    }
    told += problems();
    notChecked();
    nanoseconds += System.nanoTime() - start;
    summary = Summary.of(bodies, told, suppressed, program.annotations().trustedMethods(),
        nanoseconds / 1e9);
    System.err.println(summary);
  }

  /** Says that no body was judged, and why. */
  private void fail(String reason) {
    failed = true;
    bodies.forEach(it -> it.leaveOut(reason));
    tell(Diagnostic.Kind.ERROR, "[rlc] nothing is known of this program: " + reason, anyUnit,
        anyUnit);
  }

  private static Diagnostic.Kind kind(boolean error) {
    // A mandatory warning is told under -nowarn, too.
    return error ? Diagnostic.Kind.ERROR : Diagnostic.Kind.MANDATORY_WARNING;
  }

  /** Tells of annotations that could not be taken. */
  private int problems() {
    int told = 0;
    for (Map.Entry<Element, Set<String>> entry : program.problems().all().entrySet()) {
      var path = program.attribution().trees().getPath(entry.getKey());
      for (String message : entry.getValue()) {
        if (path == null) {
          System.err.println("rlc: " + entry.getKey().getEnclosingElement() + "." + entry.getKey()
              + ": " + message);
        } else if (!suppression.covers(entry.getKey())) {
          told++;
          tell(kind(options.isError()), "[rlc] " + message, path.getLeaf(),
              path.getCompilationUnit());
        }
      }
    }
    return told;
  }

  private void notChecked() {
    int told = 0;
    List<SourceBody> all = bodies.stream().filter(it -> !it.isSuppressed() && it.reason() != null)
        .toList();
    for (SourceBody it : all) {
      // Where no body is checked, the error says so.
      if (failed && told++ == MOST_OF_ALL) {
        System.err.println("rlc: and " + (all.size() - MOST_OF_ALL)
            + " more bodies are not checked");
        break;
      }
      String message = "[rlc] " + Wording.nameOf(it) + " is not checked: " + it.reason();
      tell(kind(options.isError() && options.isStrict()), message, it.tree(), it.unit());
    }
  }

  private void tell(Diagnostic.Kind kind, String message, Tree tree, CompilationUnitTree unit) {
    com.sun.source.util.Trees.instance(task).printMessage(kind, message, tree, unit);
  }
}
