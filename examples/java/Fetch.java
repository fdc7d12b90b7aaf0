import java.io.BufferedReader;
import java.io.FileReader;
import java.io.IOException;
import java.util.ArrayList;
import java.util.List;
import java.util.function.Predicate;

/** Reads the lines of files that a condition takes. The reader is left open where a line cannot be read. */
class Fetch {

  static List<String> lines(List<String> files, Predicate<String> wanted) throws IOException {
    List<String> found = new ArrayList<>();
    for (String file : files) {
      BufferedReader reader = new BufferedReader(new FileReader(file));
      String line;
      while ((line = reader.readLine()) != null) {
        if (wanted.test(line)) {
          found.add(line);
        }
      }
      reader.close();
    }
    return found;
  }

  static long count(String file) throws IOException {
    try (BufferedReader reader = new BufferedReader(new FileReader(file))) {
      return reader.lines().filter(line -> !line.isEmpty()).count();
    }
  }
}
