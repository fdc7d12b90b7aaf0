package rlc.front.plugin;

import static org.junit.jupiter.api.Assertions.assertEquals;

import java.io.IOException;
import java.nio.file.Files;
import java.nio.file.Path;
import java.util.ArrayList;
import java.util.List;
import org.junit.jupiter.api.Test;
import org.junit.jupiter.api.io.TempDir;

/** The status of the command. */
final class CommandTest {
  private static final String CLEAN = "class A { void f() { } }";
  private static final String LEAK =
      "import java.io.*; class A { void f() throws IOException { new FileInputStream(\"x\"); } }";
  private static final String NOT_LOWERED =
      "class A { void f(int k) { do { k++; } while (switch (k) { case 1 -> g(); default -> true; }); }"
          + " boolean g() { return true; } }";

  @TempDir Path folder;

  private int status(String text, String... words) throws IOException {
    Path file = folder.resolve("A.java");
    Files.writeString(file, text);
    List<String> all = new ArrayList<>(List.of("--rlc", System.getenv("RLC_ENGINE")));
    all.addAll(List.of(words));
    all.add(file.toString());
    return Command.run(all.toArray(String[]::new));
  }

  @Test
  void allCheckedAndNothingFound() throws IOException {
    assertEquals(0, status(CLEAN));
  }

  @Test
  void somethingFound() throws IOException {
    assertEquals(1, status(LEAK));
    assertEquals(1, status(LEAK, "--error"));
  }

  @Test
  void errorsOfTheCompiler() throws IOException {
    assertEquals(2, status("class A { int f() { } }"));
    assertEquals(2, status("class A {"));
  }

  @Test
  void wrongWords() throws IOException {
    assertEquals(3, Command.run());
    assertEquals(3, status(CLEAN, "--skip", "["));
    assertEquals(3, status(CLEAN, "--no-such-option"));
  }

  @Test
  void bodiesNotChecked() throws IOException {
    assertEquals(4, status(NOT_LOWERED));
    assertEquals(1, status(NOT_LOWERED, "--strict"));
  }

  @Test
  void skippedClasses() throws IOException {
    assertEquals(0, status(LEAK, "--skip", "^A$"));
  }

  @Test
  void stubsOfTheUser() throws IOException {
    Path stub = folder.resolve("a.astub");
    Files.writeString(stub, "public class A { @NotOwning public java.io.InputStream get(); }");
    String text = "import java.io.*; class A { InputStream get() { return null; } void f() { get(); } }";
    assertEquals(1, status(text));
    assertEquals(0, status(text, "--stubs", stub.toString()));
    Files.writeString(stub, "public class A { get( }");
    assertEquals(4, status(text, "--stubs", stub.toString()));
  }
}
