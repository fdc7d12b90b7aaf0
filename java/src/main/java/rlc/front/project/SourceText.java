package rlc.front.project;

import com.sun.source.tree.CompilationUnitTree;
import com.sun.source.tree.MemberSelectTree;
import com.sun.source.tree.MethodInvocationTree;
import com.sun.source.tree.Tree;
import com.sun.source.util.SourcePositions;
import com.sun.source.util.Trees;
import java.io.IOException;

/**
 * The text of a source file, for the places that the compiler's trees do not tell: where the name
 * of a called method stands, and the closing brace of a block.
 */
public final class SourceText {
  private final CompilationUnitTree unit;
  private final SourcePositions positions;
  private final String text;

  /** The text of a unit. */
  public SourceText(Trees trees, CompilationUnitTree unit) {
    this.unit = unit;
    this.positions = trees.getSourcePositions();
    String content;
    try {
      content = unit.getSourceFile().getCharContent(true).toString();
    } catch (IOException e) {
      content = "";
    }
    this.text = content;
  }

  /** The line of a tree, counted from 1: for a call that of the method's name. */
  public long lineOf(Tree tree) {
    return line(offsetOf(tree));
  }

  /** The line of the closing brace of a block that begins at a tree. */
  public long endLineOf(Tree block) {
    int open = (int) positions.getStartPosition(unit, block);
    int close = open;
    while (close >= 0 && close < text.length() && text.charAt(close) != '{') {
      close = skip(close);
    }
    int depth = 0;
    while (close < text.length()) {
      char c = text.charAt(close);
      depth += c == '{' ? 1 : c == '}' ? -1 : 0;
      if (depth == 0 && c == '}') {
        return line(close);
      }
      close = skip(close);
    }
    return line(open);
  }

  private long line(int offset) {
    return offset < 0 ? 0 : unit.getLineMap().getLineNumber(offset);
  }

  private int offsetOf(Tree tree) {
    if (tree instanceof MethodInvocationTree call) {
      return offsetOf(call.getMethodSelect());
    }
    int start = (int) positions.getStartPosition(unit, tree);
    if (!(tree instanceof MemberSelectTree select) || start < 0) {
      return start;
    }
    Tree receiver = select.getExpression();
    int from = skipWord(offsetOf(receiver));
    int depth = 0;
    while (from < text.length()) {
      char c = text.charAt(from);
      if (c == '(' || c == '[' || c == '{') {
        depth++;
      } else if (c == ')' || c == ']' || c == '}') {
        depth--;
      } else if (c == '.' && depth <= 0) {
        int name = nameBehind(from + 1, select.getIdentifier().toString());
        if (name >= 0) {
          return name;
        }
      }
      from = skip(from);
    }
    return start;
  }

  /** Where a name stands behind a dot, with blanks and type arguments between them; or -1. */
  private int nameBehind(int dot, String name) {
    int at = dot;
    int depth = 0;
    while (at < text.length()) {
      char c = text.charAt(at);
      if (c == '<') {
        depth++;
      } else if (c == '>') {
        depth--;
      } else if (depth == 0 && Character.isJavaIdentifierStart(c)) {
        int end = skipWord(at);
        return name.equals(text.substring(at, end)) ? at : -1;
      } else if (depth == 0 && !Character.isWhitespace(c) && c != '/') {
        return -1;
      }
      at = skip(at);
    }
    return -1;
  }

  private int skipWord(int from) {
    int at = Math.max(from, 0);
    while (at < text.length() && Character.isJavaIdentifierPart(text.charAt(at))) {
      at++;
    }
    return at;
  }

  /**
   * The offset behind the character, comment, text or character literal that begins at one (JLS
   * 3.7, 3.10).
   */
  private int skip(int at) {
    char c = text.charAt(at);
    char next = at + 1 < text.length() ? text.charAt(at + 1) : ' ';
    if (c == '/' && next == '/') {
      return find("\n", at);
    }
    if (c == '/' && next == '*') {
      return find("*/", at + 2);
    }
    if (c == '"' && text.length() > at + 2 && next == '"' && text.charAt(at + 2) == '"') {
      return closing("\"\"\"", at + 3);
    }
    if (c == '"' || c == '\'') {
      return closing(String.valueOf(c), at + 1);
    }
    return at + 1;
  }

  private int find(String mark, int from) {
    int at = text.indexOf(mark, from);
    return at < 0 ? text.length() : at + mark.length();
  }

  private int closing(String mark, int from) {
    int at = from;
    while (at < text.length()) {
      if (text.charAt(at) == '\\') {
        at++;
      } else if (text.startsWith(mark, at)) {
        return at + mark.length();
      }
      at++;
    }
    return text.length();
  }
}
