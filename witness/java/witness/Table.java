package witness;

import java.util.ArrayList;
import java.util.HashMap;
import java.util.HashSet;
import java.util.LinkedHashMap;
import java.util.List;
import java.util.Map;
import java.util.Set;

/** The library of one program: its classes in class order, their sets, their signatures, and the names of interest. */
final class Table {
  /** The classes in class order: each with its must-call set, and with all that is above it. */
  final Map<String, Set<String>> sets = new LinkedHashMap<>();
  final Map<String, Set<String>> above = new HashMap<>();
  final Map<String, Signature> signatures = new HashMap<>();
  final Set<String> names = new HashSet<>();

  /** Lines {@code class NAME|set,..|above,..}, {@code name NAME} and {@code sig LINE}. */
  Table(List<String> lines) {
    for (String line : lines) {
      String rest = line.substring(line.indexOf(' ') + 1);
      if (line.startsWith("class ")) {
        String[] parts = rest.split("\\|", -1);
        sets.put(parts[0], parts[1].isEmpty() ? Set.of() : Set.of(parts[1].split(",")));
        above.put(parts[0], Set.of(parts[2].split(",")));
      } else if (line.startsWith("name ")) {
        names.add(rest);
      } else if (line.startsWith("sig ")) {
        Signature signature = new Signature(rest);
        signatures.put(signature.key, signature);
      }
    }
  }

  /** The classes of which a fresh object may be, where its declared class is this one. */
  List<String> picks(String declared) {
    List<String> found = new ArrayList<>();
    found.add(declared);
    for (Map.Entry<String, Set<String>> entry : sets.entrySet()) {
      String name = entry.getKey();
      boolean fits = sets.getOrDefault(declared, Set.of()).containsAll(entry.getValue());
      if (!name.equals(declared) && above.get(name).contains(declared) && fits) {
        found.add(name);
      }
    }
    return found;
  }
}
