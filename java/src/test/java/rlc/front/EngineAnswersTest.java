package rlc.front;

import static org.junit.jupiter.api.Assertions.assertEquals;
import static org.junit.jupiter.api.Assertions.assertFalse;
import static org.junit.jupiter.api.Assertions.assertNotNull;
import static org.junit.jupiter.api.Assertions.assertTrue;

import java.io.IOException;
import java.nio.charset.StandardCharsets;
import java.nio.file.Files;
import java.nio.file.Path;
import java.nio.file.attribute.PosixFilePermissions;
import java.util.List;
import java.util.Map;
import javax.tools.Diagnostic;
import org.junit.jupiter.api.Test;
import org.junit.jupiter.api.io.TempDir;
import org.junit.jupiter.params.ParameterizedTest;
import org.junit.jupiter.params.provider.CsvSource;

/**
 * Whatever {@code rlc} does, the answer is a clear error of the compiler, and no body counts as
 * checked.
 */
final class EngineAnswersTest {
  /** Two bodies, of which none leaks: an accepted program would be clean. */
  private static final String SOURCE =
      """
      import java.io.*;
      class Clean {
        int one(String name) throws IOException {
          try (InputStream in = new FileInputStream(name)) {
            return in.read();
          }
        }
        void two(InputStream in) throws IOException {
          in.read();
        }
      }
      """;

  @TempDir Path folder;

  @Test
  void missing() {
    assertNothingKnown(run(folder.resolve("absent")),
        "there is no program " + folder.resolve("absent"));
  }

  @Test
  void isFolder() {
    assertNothingKnown(run(folder), "there is no program " + folder);
  }

  @Test
  void notExecutable() throws IOException {
    Path file = Files.writeString(folder.resolve("rlc"), "#!/bin/sh\nexit 0\n");
    assertNothingKnown(run(file), "there is no program " + file);
  }

  @Test
  void noProgram() throws IOException {
    Path file = folder.resolve("rlc");
    Files.write(file, new byte[] {0x7f, 'E', 'L', 'F', 0, 0, 0, 0});
    executable(file);
    assertNothingKnown(run(file), "rlc ");
  }

  /** Scripts in place of {@code rlc}, each with words of the message that it brings about. */
  @ParameterizedTest(name = "{0}")
  @CsvSource(delimiter = '|', textBlock = """
      kill -KILL $$                                  | rlc was ended by signal 9
      kill -SEGV $$                                  | rlc was ended by signal 11
      kill -TERM $$                                  | rlc was ended by signal 15
      exit 3                                         | did not take the words
      echo 'A.java: 4 unreadable'; exit 4            | could not read a file
      exit 4                                         | could not read a file
      exit 5                                         | could not write its answer
      echo 'no room' >&2; exit 5                     | no room
      exit 6                                         | out of memory
      exit 7                                         | status 7 and without a word
      echo '7 limit'; exit 7                         | rlc refuses the lowered program: 7 limit
      exit 8                                         | unknown status 8
      exit 99                                        | unknown status 99
      exit 1                                         | status 1 and without a word
      exit 2                                         | status 2 and without a word
      echo 'all is well'                             | what no answer has
      echo 'all is well'; exit 1                     | cannot read: all is well
      echo 'garbage'; exit 2                         | rlc refuses the lowered program: garbage
      printf '\\377\\376\\000\\001'; exit 1          | cannot read: ??
      printf '\\377\\376\\000\\001'; exit 2          | rlc refuses the lowered program: ??
      head -c 3000000 /dev/zero; exit 1              | cannot read: ???
      head -c 300000000 /dev/zero; exit 1            | more than any answer has
      printf 'Bodies0.java:3:1: exit missing close\\n'; exit 1 | cannot read
      printf 'Bodies0.java:1:1: exit missing close\\n  origin new X 1:1\\n'; exit 1 | outside of every body
      printf 'Bodies0.java:99999999:1: exit missing close\\n  origin new X 1:1\\n'; exit 1 | outside of every body
      printf 'Bodies0.java:99999999999:1: exit missing close\\n  origin new X 1:1\\n'; exit 1 | cannot read: Bodies0
      printf 'Other.java:3:1: exit missing close\\n  origin new X 1:1\\n'; exit 1 | outside of every body
      printf 'Bodies0.java:1:1: 20 syntax\\n'; exit 2 | rlc refuses the lowered program
      printf 'Bodies0.java:99999999999:1: 20 syntax\\n'; exit 2 | rlc refuses the lowered program
      printf 'signatures.astub:1:1: 20 syntax\\n'; exit 2 | rlc refuses the lowered program
      """)
  void answers(String script, String words) throws IOException {
    assertNothingKnown(run(script(script)), words);
  }

  /** A refusal that never ends leaves each body out, and names it. */
  @Test
  void refusesEveryLine() throws IOException {
    String script = """
        for file; do case "$file" in *Bodies0.java) break;; esac; done
        line=$(grep -n 'public static' "$file" | head -1 | cut -d: -f1)
        [ -n "$line" ] || exit 0
        echo "$file:$line:3: 61 limit"
        exit 7
        """;
    Front front = run(script(script));
    assertNotNull(front.summary(), () -> messages(front));
    assertEquals(0, front.summary().checked(), () -> messages(front));
    assertEquals(2, front.notChecked().size(), () -> messages(front));
    assertTrue(front.notChecked().get(0).contains("61 limit"), () -> messages(front));
    assertFalse(front.summary().isClean());
  }

  /** The compiler itself goes on: what is missing is the check. */
  @Test
  void realEngineIsClean() {
    Front front = run(Front.engine());
    assertTrue(front.summary().isClean(), () -> messages(front));
    assertEquals(2, front.summary().checked());
  }

  private static Front run(Path engine) {
    return Front.over(Map.of("Clean.java", SOURCE), "rlc=" + engine);
  }

  private Path script(String text) throws IOException {
    Path file = Files.writeString(folder.resolve("rlc"), "#!/bin/sh\n" + text + "\n",
        StandardCharsets.UTF_8);
    return executable(file);
  }

  private static Path executable(Path file) throws IOException {
    return Files.setPosixFilePermissions(file, PosixFilePermissions.fromString("rwx------"));
  }

  private static void assertNothingKnown(Front front, String words) {
    List<String> errors = front.messages().stream()
        .filter(it -> it.getKind() == Diagnostic.Kind.ERROR)
        .map(it -> it.getMessage(null))
        .toList();
    assertEquals(1, errors.size(), () -> messages(front));
    assertTrue(errors.get(0).startsWith("[rlc] nothing is known of this program: "), errors.get(0));
    assertTrue(errors.get(0).contains(words), errors.get(0));
    assertTrue(errors.get(0).length() < 400, errors.get(0));
    assertNotNull(front.summary());
    assertEquals(0, front.summary().checked(), () -> messages(front));
    assertEquals(2, front.summary().notChecked(), () -> messages(front));
    assertFalse(front.summary().isClean());
  }

  private static String messages(Front front) {
    StringBuilder text = new StringBuilder().append(front.summary()).append('\n');
    front.messages().forEach(it -> text.append(it).append('\n'));
    return text.toString();
  }
}
