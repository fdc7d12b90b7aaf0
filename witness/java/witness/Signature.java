package witness;

import java.util.ArrayList;
import java.util.LinkedHashSet;
import java.util.List;
import java.util.Set;

/** What the stub says of one method, constructor or constant of the library. */
final class Signature {
  /** {@code CLASS.name(types)}, by which the texts for the Java machine name it. */
  final String key;
  /** The name of the method; empty for a constructor or a constant. */
  final String name;
  /** The result type as the stub writes it, qualified; {@code void} where there is none. */
  final String result;
  final List<String> throwing;
  final boolean owning;
  /** The position of the aliased argument, 0 for the receiver, -1 for none. */
  final int alias;
  /** The position of the argument whose obligation is created anew, -1 for none. */
  final int reset;
  /** The promises on a normal end: position and names. */
  final List<Promise> promises = new ArrayList<>();
  final boolean noArguments;
  final boolean isConstant;

  record Promise(int position, Set<String> names) {}

  /** Reads the line {@code key|name|result|throws,..|owning|alias|reset|position:name:name,..|arity}; the arity of a constant is -1. */
  Signature(String line) {
    String[] parts = line.split("\\|", -1);
    key = parts[0];
    name = parts[1];
    result = parts[2];
    throwing = parts[3].isEmpty() ? List.of() : List.of(parts[3].split(","));
    owning = parts[4].equals("1");
    alias = Integer.parseInt(parts[5]);
    reset = Integer.parseInt(parts[6]);
    for (String promise : parts[7].isEmpty() ? new String[0] : parts[7].split(",")) {
      String[] words = promise.split(":");
      Set<String> names = new LinkedHashSet<>(List.of(words).subList(1, words.length));
      promises.add(new Promise(Integer.parseInt(words[0]), names));
    }
    noArguments = parts[8].equals("0");
    isConstant = parts[8].equals("-1");
  }
}
