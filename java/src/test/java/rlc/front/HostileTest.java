package rlc.front;

import static org.junit.jupiter.api.Assertions.assertEquals;
import static org.junit.jupiter.api.Assertions.assertFalse;
import static org.junit.jupiter.api.Assertions.assertNotEquals;
import static org.junit.jupiter.api.Assertions.assertTrue;

import java.io.IOException;
import java.nio.file.Files;
import java.nio.file.Path;
import java.util.List;
import java.util.Map;
import org.junit.jupiter.api.Test;
import org.junit.jupiter.api.io.TempDir;
import org.junit.jupiter.params.ParameterizedTest;
import org.junit.jupiter.params.provider.CsvSource;

/**
 * Programs and command lines that are wrong, large or strange: a clear message, and never silence.
 */
final class HostileTest {
  private static final String LEAK =
      """
      import java.io.*;
      class Leak {
        void leak() throws IOException {
          InputStream in = new FileInputStream("a"); // leak
          in.read();
        }
      }
      """;

  @TempDir Path folder;

  @Test
  void errorsOfTypes() throws Exception {
    Processes.write(folder, "Leak.java", LEAK);
    Processes.write(folder, "Wrong.java", "class Wrong { int n = \"text\"; }");
    Processes.Answer answer = Processes.javac(folder, "", "Leak.java", "Wrong.java");
    assertEquals(1, answer.status(), answer.text());
    assertTrue(answer.text().contains("Wrong.java:1: error: incompatible types"), answer.text());
    assertTrue(answer.text().contains("Leak.java:4: warning: [rlc]")
        || answer.text().contains("rlc: nothing was checked"), answer.text());
  }

  @Test
  void errorsOfSyntax() throws Exception {
    Processes.write(folder, "Leak.java", LEAK);
    Processes.write(folder, "Wrong.java", "class Wrong { int n = ; }");
    Processes.Answer answer = Processes.javac(folder, "", "Leak.java", "Wrong.java");
    assertEquals(1, answer.status(), answer.text());
    assertTrue(answer.text().contains("Wrong.java:1: error: illegal start of expression"),
        answer.text());
    assertFalse(answer.hasSummary(), answer.text());
  }

  @Test
  void missingClassPath() throws Exception {
    Processes.write(folder, "Uses.java",
        "class Uses { void m() throws Exception { new lib.Pipe().close(); } }");
    Processes.Answer answer = Processes.javac(folder, "", "-cp", "nowhere.jar", "Uses.java");
    assertEquals(1, answer.status(), answer.text());
    assertTrue(answer.text().contains("package lib does not exist"), answer.text());
    assertTrue(answer.text().contains("Uses.m() is not checked: ")
        || answer.text().contains("rlc: nothing was checked"), answer.text());
  }

  /** A class path that is not there, but of which nothing is used, changes nothing. */
  @Test
  void missingClassPathThatIsNotUsed() throws Exception {
    Processes.write(folder, "Leak.java", LEAK);
    Processes.Answer answer = Processes.javac(folder, "", "-cp", "nowhere.jar", "Leak.java");
    assertEquals(0, answer.status(), answer.text());
    assertEquals(1, answer.findings().size(), answer.text());
    assertTrue(answer.findings().get(0).startsWith("Leak.java:4: warning: [rlc] "), answer.text());
  }

  /**
   * A class file names classes that are not there: what the compiler takes is checked, or named.
   */
  @ParameterizedTest(name = "without {0}")
  @CsvSource({"Base", "Gone", "Trouble"})
  void incompleteLibrary(String gone) throws Exception {
    Processes.write(folder, "lib/Base.java",
        "package lib; public class Base { public void base() { } }");
    Processes.write(folder, "lib/Gone.java", "package lib; public class Gone { }");
    Processes.write(folder, "lib/Trouble.java",
        "package lib; public class Trouble extends Exception { }");
    Processes.write(folder, "lib/Pipe.java",
        """
        package lib;
        public class Pipe implements AutoCloseable {
          public Gone gone;
          public Gone find(Gone g) { return g; }
          public void risk() throws Trouble { }
          public Base base() { return null; }
          public void other() { }
          public void close() { }
        }
        """);
    Processes.write(folder, "lib/Under.java",
        "package lib; public class Under extends Base { public void own() { } }");
    assertEquals(0, Processes.plainJavac(folder, "-d", "lib.classes", "lib/Pipe.java",
        "lib/Under.java", "lib/Gone.java",
        "lib/Trouble.java", "lib/Base.java").status());
    Files.delete(folder.resolve("lib.classes/lib/" + gone + ".class"));
    Processes.write(folder, "app/App.java",
        """
        package app;
        class App {
          void leak() {
            lib.Pipe pipe = new lib.Pipe();
            pipe.other();
          }
          void clean(lib.Pipe given) {
            given.other();
          }
        }
        """);
    String[] words = {"-implicit:none", "-sourcepath", "", "-cp", "lib.classes", "-d", "classes",
        "app/App.java"};
    Processes.Answer plain = Processes.plainJavac(folder, words);
    assertEquals(0, plain.status(), plain.text());
    Processes.Answer answer = Processes.javac(folder, "", words);
    assertEquals(0, answer.status(), answer.text());
    assertTrue(answer.hasSummary(), answer.text());
    boolean found = answer.findings().size() == 1
        && answer.findings().get(0).startsWith("app/App.java:4:");
    assertTrue(found || answer.notChecked().stream().anyMatch(it -> it.contains("leak")),
        answer.text());
  }

  /** Words of the plugin that are wrong end the compilation with their cause. */
  @ParameterizedTest(name = "{0}")
  @CsvSource(delimiter = '|', textBlock = """
      nonsense          | unknown option nonsense
      skip=(            | regular expression
      stubs=nowhere     | nowhere
      ignored=none      | the option ignored is not for Java projects
      """)
  void wrongWords(String word, String message) throws Exception {
    Processes.write(folder, "Leak.java", LEAK);
    Processes.Answer answer = Processes.javac(folder, word, "Leak.java");
    assertNotEquals(0, answer.status(), answer.text());
    assertTrue(answer.text().contains(message), answer.text());
    assertFalse(answer.hasSummary(), answer.text());
  }

  @Test
  void wrongStubFile() throws Exception {
    Processes.write(folder, "Leak.java", LEAK);
    Processes.write(folder, "bad.astub", "package x;\nclass { this is no stub");
    Processes.Answer answer = Processes.javac(folder, "stubs=bad.astub", "Leak.java");
    assertNotEquals(0, answer.status(), answer.text());
    assertTrue(answer.text().contains("bad.astub"), answer.text());
    assertFalse(answer.hasSummary(), answer.text());
  }

  /** Nowhere to write: nothing is known, and that is told. */
  @Test
  void noFolderForFiles() throws Exception {
    Processes.write(folder, "Leak.java", LEAK);
    Processes.Answer answer =
        Processes.javac(folder, "", "-J-Djava.io.tmpdir=" + folder.resolve("none"), "Leak.java");
    assertNotEquals(0, answer.status(), answer.text());
    assertTrue(answer.text().contains("[rlc] nothing is known of this program"), answer.text());
  }

  @Test
  void tenThousandMethods() {
    StringBuilder text = new StringBuilder("import java.io.*;\nclass Many {\n");
    for (int i = 0; i < 10_000; i++) {
      text.append("  void m").append(i)
          .append("() throws IOException { InputStream in = new FileInputStream(\"a\"); ")
          .append(i == 7777 ? "" : "in.close(); ").append("}\n");
    }
    Front front = Front.over(Map.of("Many.java", text.append("}\n").toString()));
    assertEquals(List.of("Many.java:7780"), front.places(),
        () -> front.messages().get(0).toString());
    assertEquals(10_000, front.summary().checked());
  }

  /**
   * Names of the front's own text, of its stub and of {@code java.lang}, as names of the program.
   */
  @Test
  void namesOfTheFront() {
    StringBuilder text = new StringBuilder("package p;\nimport java.io.*;\n");
    List<String> names = List.of("Rt", "S0", "B0", "Mark0", "Jump0", "Owning", "NotOwning",
        "MustCall", "InheritableMustCall", "MustCallAlias", "Bodies0", "Stub", "Annotations", "self",
        "b", "use", "some_Object", "p", "close", "Rt_1", "S0_2", "X_I", "AutoCloseable_1",
        "Closeable", "IOError", "$", "_x", "größe", "名前", "record_", "module", "open");
    for (String name : names) {
      text.append("class ").append(name)
          .append(" implements AutoCloseable { public void close() { } ")
          .append(name).append(" ").append(name).append("(").append(name).append(" given) { ")
          .append(name).append(" ").append(name).append(" = given; return null; } ")
          .append("void leak_").append(name).append("() { new ").append(name).append("(); } ")
          .append("void b() { try (").append(name).append(" use = new ").append(name)
              .append("()) { use.close(); } } }\n");
    }
    Front front = Front.over(Map.of("p/Names.java", text.toString()));
    List<String> wanted = java.util.stream.IntStream.range(0, names.size())
        .mapToObj(it -> "p/Names.java:" + (it + 3)).sorted().toList();
    assertEquals(wanted, front.places(), () -> front.messages().toString());
    assertEquals(List.of(), front.notChecked());
  }

  /**
   * Classes of the program that are called as classes of {@code java.lang} and {@code java.io} are.
   */
  @Test
  void namesOfTheLibrary() {
    String text =
        """
        package q;
        class Names {
          static class Object { void close() { } }
          static class String implements AutoCloseable { public void close() { } }
          static class Exception extends java.lang.Exception { }
          static class Throwable extends java.lang.RuntimeException { }
          static class FileInputStream implements java.io.Closeable { public void close() { } }
          void a() { Object o = new Object(); o.close(); }
          void b() { String s = new String(); }
          void c() { FileInputStream in = new FileInputStream(); }
          void d() throws Exception { String s = new String(); s.close(); throw new Exception(); }
          void e() { String s = new String(); try { throw new Throwable(); } finally { s.close(); } }
          void f() throws java.io.IOException { java.io.InputStream in = new java.io.FileInputStream("a"); }
        }
        """;
    Front front = Front.over(Map.of("q/Names.java", text));
    assertEquals(List.of("q/Names.java:10", "q/Names.java:13", "q/Names.java:9"), front.places(),
        () -> front.messages().toString());
    assertEquals(List.of(), front.notChecked());
  }

  /** Escapes (JLS 3.3), line ends and tabs: lines are those of the compiler. */
  @Test
  void escapesAndLineEnds() {
    String text = String.join("\r\n",
        "import java.io.*;",
        "class Odd {",
        "\tvoid a() throws IOException \\u007b",
        "\t\tInputStream in = new FileInputStream(\"}\");",
        "\t\tString s = \"\\u0022; // \\u000a",
        "\t\tin.read();",
        "\t\\u007d",
        "\tvoid b() { /* } */ char c = '}'; }",
        "}",
        "");
    Front front = Front.over(Map.of("Odd.java", text));
    assertEquals(List.of("Odd.java:4"), front.places(), () -> front.messages().toString());
  }

  /** Depth that the compiler itself takes: checked, or named. */
  @ParameterizedTest(name = "{0}")
  @CsvSource(delimiter = '|', textBlock = """
      blocks      | 400  | {                      | }
      branches    | 300  | if (n > 0) {           | }
      loops       | 200  | while (n > 0) {        | }
      handlers    | 150  | try {                  | } finally { n++; }
      parentheses | 400  | n = (                  | 1);
      sums        | 400  | n = n                  | ;
      """)
  void deep(String what, int depth, String open, String close) {
    String inner = what.equals("sums") ? " + n".repeat(depth) : what.equals("parentheses")
        ? "(".repeat(depth) + "1" + ")".repeat(depth) + " + " : null;
    String statement = inner == null
        ? (open + " ").repeat(depth) + "n++; " + (close + " ").repeat(depth)
        : open + inner + close;
    String text =
        """
        import java.io.*;
        class Deep {
          int n;
          void deep() throws IOException {
            InputStream in = new FileInputStream("a");
            DEEP
          }
          void leak() throws IOException {
            InputStream in = new FileInputStream("a");
          }
        }
        """.replace("DEEP", statement);
    Front front = Front.over(Map.of("Deep.java", text));
    boolean named = front.notChecked().stream().anyMatch(it -> it.contains("deep"));
    assertTrue(front.places().contains("Deep.java:9"), () -> front.messages().toString());
    assertTrue(named || front.places().contains("Deep.java:5"), () -> front.messages().toString());
  }

  /**
   * Files without a class, and kinds of classes without a body: nothing is found, and all is
   * counted.
   */
  @Test
  void filesWithoutBodies() throws Exception {
    Processes.write(folder, "a/package-info.java", "/** Nothing. */\npackage a;\n");
    Processes.write(folder, "a/Empty.java", "");
    Processes.write(folder, "a/Mark.java", "package a; @interface Mark { int value() default 1; }");
    Processes.write(folder, "a/Point.java",
        "package a; record Point(int x, int y) { Point { if (x > y) { throw new IllegalArgumentException(); } } }");
    Processes.write(folder, "a/Kind.java",
        "package a; enum Kind { A { int n() { return 1; } }, B; int n() { return 2; } }");
    Processes.write(folder, "a/Shape.java",
        "package a; sealed interface Shape permits Shape.Circle { final class Circle implements Shape { } }");
    Processes.Answer answer = Processes.javac(folder, "", "a/package-info.java", "a/Empty.java",
        "a/Mark.java", "a/Point.java",
        "a/Kind.java", "a/Shape.java");
    assertEquals(0, answer.status(), answer.text());
    assertTrue(answer.text().contains(" 0 not checked, 0 suppressed; 0 obligations reported"),
        answer.text());
  }

  /**
   * A class that an annotation processor writes is a part of the program, and so is what was there
   * before it ran.
   */
  @Test
  void annotationProcessor() throws Exception {
    Processes.write(folder, "Writes.java",
        """
        import java.io.*;
        import java.util.*;
        import javax.annotation.processing.*;
        import javax.lang.model.element.TypeElement;
        @SupportedAnnotationTypes("*")
        public class Writes extends AbstractProcessor {
          private boolean done;
          @Override public javax.lang.model.SourceVersion getSupportedSourceVersion() {
            return javax.lang.model.SourceVersion.latest();
          }
          @Override public boolean process(Set<? extends TypeElement> types, RoundEnvironment round) {
            if (!done) {
              done = true;
              try (Writer out = processingEnv.getFiler().createSourceFile("Made").openWriter()) {
                out.write("class Made implements AutoCloseable { public void close() { } static Made make() {\\n"
                    + "Made lost = new Made(); return new Made(); } }");
              } catch (IOException e) {
                throw new UncheckedIOException(e);
              }
            }
            return false;
          }
        }
        """);
    Processes.write(folder, "Leak.java",
        LEAK.replace("in.read();", "in.read(); Made made = Made.make();"));
    Processes.Answer made =
        Processes.plainJavac(folder, "-proc:none", "-d", "tools", "Writes.java");
    assertEquals(0, made.status(), made.text());
    List<String> words = List.of(Path.of(System.getProperty("java.home"), "bin", "javac")
        .toString(), "-processorpath",
        Processes.jar() + ":tools", "-processor", "Writes", "-Xplugin:Rlc rlc=" + Front.engine(),
            "-d", "classes", "Leak.java");
    Files.createDirectories(folder.resolve("classes"));
    Processes.Answer answer = Processes.run(folder, words);
    assertEquals(0, answer.status(), answer.text());
    assertEquals(3, answer.findings().size(), answer.text());
    assertTrue(answer.findings().stream().anyMatch(it -> it.contains("Made.java:2:")),
        answer.text());
    assertTrue(answer.findings().stream().anyMatch(it -> it.contains("Leak.java:4:")),
        answer.text());
    assertTrue(answer.findings().stream().anyMatch(it -> it.contains("Leak.java:5:")),
        answer.text());
  }

  @Test
  void suppressedIsCounted() throws IOException {
    Front front = Front.over(
        Map.of("Leak.java", LEAK.replace("  void leak", "  @SuppressWarnings(\"rlc\") void leak")));
    assertEquals(List.of(), front.places());
    assertEquals(1, front.summary().suppressed());
    assertEquals(0, front.summary().checked());
  }
}
