package rlc.front.plugin;

import java.nio.file.Path;
import java.util.ArrayList;
import java.util.List;
import java.util.regex.Pattern;
import java.util.regex.PatternSyntaxException;

/**
 * The options of a run, as words: {@code error}, {@code strict}, {@code skip=REGEX}, {@code
 * stubs=PATH}, {@code rlc=PATH}, {@code keep=DIR}.
 */
public final class Options {
  private boolean error;
  private boolean strict;
  private Pattern skip;
  private Path engine;
  private Path kept;
  private final List<Path> stubs = new ArrayList<>();

  /** Reads words; what is wrong with one is the message of the exception. */
  public static Options of(String... words) {
    Options found = new Options();
    for (String word : words) {
      if (!word.isBlank()) {
        found.add(word);
      }
    }
    return found;
  }

  private void add(String word) {
    int equals = word.indexOf('=');
    String key = equals < 0 ? word : word.substring(0, equals);
    String value = equals < 0 ? "" : word.substring(equals + 1);
    switch (key) {
      case "error" -> error = true;
      case "strict" -> strict = true;
      case "skip" -> skip = pattern(value);
      case "stubs" -> stubs.add(Path.of(value));
      case "rlc" -> engine = Path.of(value);
      case "keep" -> kept = Path.of(value);
      case "config", "ignored", "exact" -> throw new IllegalArgumentException(
          "the option " + key + " is not for Java projects: the lowered program leaves out"
              + " operations that may throw exceptions of the default list (RuntimeException and"
              + " Error), so no other list would be sound");
      default -> throw new IllegalArgumentException("unknown option " + word
          + "; known are error, strict, skip=REGEX, stubs=PATH, rlc=PATH, keep=DIR");
    }
  }

  private static Pattern pattern(String text) {
    try {
      return Pattern.compile(text);
    } catch (PatternSyntaxException e) {
      throw new IllegalArgumentException("skip= needs a regular expression: " + e.getDescription());
    }
  }

  /** Whether what is found are errors. */
  public boolean isError() {
    return error;
  }

  /** Whether bodies that are not checked count as found. */
  public boolean isStrict() {
    return strict;
  }

  /** The pattern of the names of classes that are skipped, or null. */
  public Pattern skip() {
    return skip;
  }

  /** The program {@code rlc}, or null for the one in the jar. */
  public Path engine() {
    return engine;
  }

  /** The folder where the lowered text is kept, or null. */
  public Path kept() {
    return kept;
  }

  /** The stub files of the user. */
  public List<Path> stubs() {
    return stubs;
  }
}
