package rlc.front;

import com.sun.source.tree.BlockTree;
import com.sun.source.tree.CaseTree;
import com.sun.source.tree.ClassTree;
import com.sun.source.tree.CompilationUnitTree;
import com.sun.source.tree.ExpressionStatementTree;
import com.sun.source.tree.MemberSelectTree;
import com.sun.source.tree.MethodInvocationTree;
import com.sun.source.tree.MethodTree;
import com.sun.source.tree.ModifiersTree;
import com.sun.source.tree.StatementTree;
import com.sun.source.tree.Tree;
import com.sun.source.tree.TryTree;
import com.sun.source.util.JavacTask;
import com.sun.source.util.SourcePositions;
import com.sun.source.util.TreeScanner;
import com.sun.source.util.Trees;
import java.io.IOException;
import java.net.URI;
import java.nio.charset.StandardCharsets;
import java.nio.file.Files;
import java.nio.file.Path;
import java.util.ArrayList;
import java.util.List;
import java.util.Random;
import java.util.TreeMap;
import java.util.regex.Pattern;
import javax.tools.JavaFileObject;
import javax.tools.SimpleJavaFileObject;
import javax.tools.ToolProvider;

/**
 * Changes sources so that they leak: a leak put in, a {@code close()} or the resources of a {@code
 * try} taken out.
 */
final class Seeds {
  /** A statement that leaks and throws no checked exception. */
  static final String LEAK = "new java.io.FileInputStream(new java.io.FileDescriptor()); ";

  private static final Pattern SUPPRESSED =
      Pattern.compile("SuppressWarnings.*\"(rlc|resourceleak|required\\.method\\.not\\.called)\"",
          Pattern.DOTALL);

  /**
   * A source with a leak.
   *
   * @param text the changed text; lines are those of the original
   * @param line where the leak is: the line of the seed, or the first of its method
   * @param last the last line of its method
   * @param method the method's name
   */
  record Seed(String text, long line, long last, String method) {}

  private final CompilationUnitTree unit;
  private final SourcePositions positions;
  private final String text;

  /** Of a source that can be parsed. */
  Seeds(String name, String text) throws IOException {
    this.text = text;
    JavaFileObject source =
        new SimpleJavaFileObject(URI.create("string:///" + name), JavaFileObject.Kind.SOURCE) {
      @Override
      public CharSequence getCharContent(boolean ignoreEncodingErrors) {
        return text;
      }
    };
    JavacTask task = (JavacTask) ToolProvider.getSystemJavaCompiler()
        .getTask(null, null, it -> { }, List.of("-proc:none"), null, List.of(source));
    this.unit = task.parse().iterator().next();
    this.positions = Trees.instance(task).getSourcePositions();
  }

  /**
   * Puts leaks into files: the words are a file that lists them, and a folder for the changed
   * files. Writes where each leak is: the changed file, its line, and the name of the method.
   */
  public static void main(String[] words) throws IOException {
    Random random = new Random(7);
    Path folder = Path.of(words[1]);
    int number = 0;
    for (String name : Files.readAllLines(Path.of(words[0]))) {
      Path file = Path.of(name);
      String text = Files.readString(file, StandardCharsets.ISO_8859_1);
      Path to = folder.resolve(String.valueOf(number++)).resolve(file.getFileName());
      List<Seed> seeds = new Seeds(file.getFileName().toString(), text).leaks(random);
      Files.createDirectories(to.getParent());
      Files.writeString(to, seeds.isEmpty()
          ? text : seeds.get(0).text(), StandardCharsets.ISO_8859_1);
      seeds.forEach(it -> System.out.println(to + " " + it.line() + " " + it.method()));
    }
  }

  /**
   * One leak before a random statement of each method and constructor: the text with all of them,
   * and each with its line.
   */
  List<Seed> leaks(Random random) {
    TreeMap<Integer, String> places = new TreeMap<>();
    for (MethodTree method : methods()) {
      List<StatementTree> all = statements(method);
      if (!all.isEmpty()) {
        places.put(start(all.get(random.nextInt(all.size()))), method.getName().toString());
      }
    }
    StringBuilder seeded = new StringBuilder(text);
    places.descendingKeySet().forEach(it -> seeded.insert(it, LEAK));
    List<Seed> found = new ArrayList<>();
    places.forEach((at, name) -> found.add(new Seed(seeded.toString(), line(at), line(at), name)));
    return found;
  }

  /** For each statement {@code x.close();} the text without it. */
  List<Seed> withoutClose() {
    List<Seed> found = new ArrayList<>();
    for (MethodTree method : methods()) {
      new BodyScanner() {
        @Override
        public Void visitExpressionStatement(ExpressionStatementTree tree, Void unused) {
          if (tree.getExpression()
              instanceof MethodInvocationTree call && call.getArguments().isEmpty()
              && call.getMethodSelect() instanceof MemberSelectTree select
                  && select.getIdentifier().contentEquals("close")) {
            String rest = text.substring(start(tree), end(tree)).replaceAll("[^\\n]", " ");
            found.add(seed(method, text.substring(0, start(tree)) + ";" + rest.substring(1)
                + text.substring(end(tree))));
          }
          return super.visitExpressionStatement(tree, null);
        }
      }.scan(method.getBody(), null);
    }
    return found;
  }

  /**
   * For each {@code try} with declared resources the text in which its resources are variables of
   * the block.
   */
  List<Seed> withoutResources() {
    List<Seed> found = new ArrayList<>();
    for (MethodTree method : methods()) {
      new BodyScanner() {
        @Override
        public Void visitTry(TryTree tree, Void unused) {
          if (!tree.getResources().isEmpty()
              && tree.getResources().stream().allMatch(it -> it.getKind() == Tree.Kind.VARIABLE)) {
            int open = start(tree.getBlock());
            StringBuilder variables = new StringBuilder();
            tree.getResources().forEach(it -> variables.append(text, start(it), end(it))
                .append("; "));
            boolean plain = tree.getCatches().isEmpty() && tree.getFinallyBlock() == null;
            String head = plain ? "" : "try ";
            String lines = text.substring(start(tree), open).replaceAll("[^\\n]", "");
            String kept = variables.toString().replace('\n', ' ');
            found.add(seed(method, text.substring(0, start(tree)) + head + "{ " + kept + lines
                + text.substring(open + 1)));
          }
          return super.visitTry(tree, null);
        }
      }.scan(method.getBody(), null);
    }
    return found;
  }

  private Seed seed(MethodTree method, String changed) {
    return new Seed(changed, line(start(method)), line(end(method) - 1),
        method.getName().toString());
  }

  /** The methods with bodies whose reports are not suppressed. */
  private List<MethodTree> methods() {
    List<MethodTree> found = new ArrayList<>();
    new TreeScanner<Void, Void>() {
      @Override
      public Void visitClass(ClassTree tree, Void unused) {
        return isSuppressed(tree.getModifiers()) ? null : super.visitClass(tree, null);
      }

      @Override
      public Void visitMethod(MethodTree tree, Void unused) {
        if (isSuppressed(tree.getModifiers())) {
          return null;
        }
        if (tree.getBody() != null) {
          found.add(tree);
        }
        return super.visitMethod(tree, null);
      }
    }.scan(unit, null);
    return found;
  }

  private static boolean isSuppressed(ModifiersTree modifiers) {
    return SUPPRESSED.matcher(modifiers.getAnnotations().toString()).find();
  }

  /**
   * The statements of a body before which another can stand; those of classes in it are of other
   * methods.
   */
  private static List<StatementTree> statements(MethodTree method) {
    List<StatementTree> found = new ArrayList<>();
    new BodyScanner() {
      @Override
      public Void visitBlock(BlockTree tree, Void unused) {
        found.addAll(tree.getStatements());
        return super.visitBlock(tree, null);
      }

      @Override
      public Void visitCase(CaseTree tree, Void unused) {
        if (tree.getStatements() != null) {
          found.addAll(tree.getStatements());
        }
        return super.visitCase(tree, null);
      }
    }.scan(method.getBody(), null);
    // Nothing may stand before the call of another constructor (JLS 8.8.7).
    found.removeIf(it -> it.toString().matches("(?s)(\\w+\\.)*(this|super)\\(.*"));
    return found;
  }

  private int start(Tree tree) {
    return (int) positions.getStartPosition(unit, tree);
  }

  private int end(Tree tree) {
    return (int) positions.getEndPosition(unit, tree);
  }

  private long line(int offset) {
    return unit.getLineMap().getLineNumber(offset);
  }

  /** Goes through a body, but not through the classes in it. */
  private static class BodyScanner extends TreeScanner<Void, Void> {
    @Override
    public Void visitClass(ClassTree tree, Void unused) {
      return null;
    }
  }
}
