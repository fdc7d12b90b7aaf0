package rlc.front.skeleton;

import java.util.ArrayList;
import java.util.List;
import java.util.Map;
import java.util.TreeMap;

/**
 * A file of the lowered program in the making: its text, and for its tokens the places of the
 * source. Lines count from 1.
 */
public final class MarkedText {

  /**
   * What a stretch of the text was made from.
   *
   * @param firstLine its first line
   * @param lastLine its last line
   * @param subject the body
   */
  private record Stretch(int firstLine, int lastLine, Object subject) {}

  private final StringBuilder text = new StringBuilder();
  private final TreeMap<Long, Place> marks = new TreeMap<>();
  private final List<Stretch> stretches = new ArrayList<>();
  private int line = 1;
  private int lineStart;

  /** Appends text without a line feed. */
  public MarkedText add(String part) {
    text.append(part);
    return this;
  }

  /** Appends a line feed. */
  public MarkedText newLine() {
    text.append('\n');
    line++;
    lineStart = text.length();
    return this;
  }

  /** Says that the next token leads back to a place. */
  public MarkedText mark(Place place) {
    if (place != null) {
      marks.put(key(line, text.length() - lineStart + 1), place);
    }
    return this;
  }

  /** The line that is being written. */
  public int line() {
    return line;
  }

  /** Says that the lines from one on were made from a subject. */
  public void stretch(int firstLine, Object subject) {
    stretches.add(new Stretch(firstLine, line, subject));
  }

  /** The length so far. */
  public int length() {
    return text.length();
  }

  /**
   * The place that the text at a line and a column was made from: that of the nearest mark before
   * it, or null.
   */
  public Place placeAt(int atLine, int column) {
    Map.Entry<Long, Place> entry = marks.floorEntry(key(atLine, column));
    return entry == null ? null : entry.getValue();
  }

  /** The subject of the stretch that a line lies in, or null. */
  public Object subjectAt(int atLine) {
    for (Stretch stretch : stretches) {
      if (stretch.firstLine <= atLine && atLine <= stretch.lastLine) {
        return stretch.subject;
      }
    }
    return null;
  }

  @Override
  public String toString() {
    return text.toString();
  }

  private static long key(int line, int column) {
    return (long) line << 32 | column;
  }
}
