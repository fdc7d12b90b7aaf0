package witness;

import java.io.DataInputStream;
import java.io.IOException;
import java.io.PrintStream;
import java.nio.charset.StandardCharsets;
import java.util.ArrayList;
import java.util.LinkedHashMap;
import java.util.List;
import java.util.Map;

/**
 * Answers requests on standard input, one after the other: {@code check} compiles files and prints what the compiler says,
 * {@code run} compiles them and runs their main class under lists of choices. Each answer ends with a line {@code .}.
 */
public final class Server {
  private final DataInputStream in = new DataInputStream(System.in);
  private final PrintStream out = new PrintStream(System.out, false, StandardCharsets.UTF_8);
  private final Compiler compiler = new Compiler();
  /** The last library, whose classes have no state of their own. */
  private Map<String, byte[]> lastLibrary = Map.of();
  private ClassLoader loader;
  /** The last program, which is often run again under other choices. */
  private Map<String, String> lastFiles = Map.of();
  private Map<String, byte[]> lastClasses = Map.of();
  private List<String> lastFaults = List.of();

  private Server() {}

  public static void main(String[] words) throws IOException {
    new Server().serve();
  }

  private void serve() throws IOException {
    for (String word = readLine(); word != null; word = readLine()) {
      try {
        answer(word);
      } catch (RuntimeException | Error wrong) {
        out.println("crash " + wrong);
      }
      out.println(".");
      out.flush();
    }
  }

  private void answer(String word) throws IOException {
    Map<String, String> libraryFiles = readFiles();
    Map<String, String> files = readFiles();
    if (word.equals("check")) {
      compiler.diagnose(files, compiler.library(libraryFiles)).forEach(out::println);
      return;
    }
    Table table = new Table(List.of(readText().split("\n")));
    String main = readLine();
    int count = Integer.parseInt(readLine());
    List<String> lists = new ArrayList<>();
    for (int i = 0; i < count; i++) {
      lists.add(readLine());
    }
    Map<String, byte[]> library = compiler.library(libraryFiles);
    if (library != lastLibrary) {
      lastLibrary = library;
      loader = new Execution.Loader(Server.class.getClassLoader(), library);
    }
    if (!files.equals(lastFiles)) {
      lastFiles = files;
      lastClasses = new LinkedHashMap<>();
      lastFaults = compiler.compile(files, library, lastClasses);
    }
    lastFaults.forEach(out::println);
    if (lastFaults.isEmpty()) {
      for (String list : lists) {
        Execution.run(new Execution.Loader(loader, lastClasses), table, main, list, out);
      }
    }
  }

  private Map<String, String> readFiles() throws IOException {
    int count = Integer.parseInt(readLine());
    Map<String, String> files = new LinkedHashMap<>();
    for (int i = 0; i < count; i++) {
      String name = readLine();
      files.put(name, readText());
    }
    return files;
  }

  private String readText() throws IOException {
    byte[] bytes = new byte[Integer.parseInt(readLine())];
    in.readFully(bytes);
    return new String(bytes, StandardCharsets.UTF_8);
  }

  private String readLine() throws IOException {
    StringBuilder line = new StringBuilder();
    for (int next = in.read(); next != '\n'; next = in.read()) {
      if (next < 0) {
        return null;
      }
      line.append((char) next);
    }
    return line.toString();
  }
}
