package rlc.front.stubs;

import java.util.ArrayList;
import java.util.LinkedHashMap;
import java.util.List;
import java.util.Map;
import java.util.Set;
import java.util.regex.Matcher;
import java.util.regex.Pattern;
import rlc.front.signatures.AnnotationData;
import rlc.front.signatures.Marks;

/**
 * Reads stub files: sections that begin with a package line, and in them classes and interfaces
 * whose methods have no bodies. Of types only the last identifiers are kept, of fields nothing.
 */
final class StubParser {
  private static final Pattern TOKEN = Pattern.compile(
      "(?<space>\\s+|//[^\\n]*|/\\*(?s:.*?)\\*/)|(?<word>[\\p{L}_$][\\p{L}\\p{N}_$]*)"
          + "|(?<text>\"(?:[^\"\\\\\\n]|\\\\.)*\")"
          + "|(?<sign>\\.\\.\\.|.)");
  private static final Set<String> MODIFIERS =
      Set.of("public", "protected", "private", "static", "final", "abstract", "default",
          "synchronized", "native");

  private final String file;
  private final List<String> tokens = new ArrayList<>();
  private final List<Integer> lines = new ArrayList<>();
  private int at;

  StubParser(String file, String text) {
    this.file = file;
    Matcher matcher = TOKEN.matcher(text);
    int line = 1;
    while (matcher.find()) {
      if (matcher.group("space") == null) {
        tokens.add(matcher.group());
        lines.add(line);
      }
      line += (int) matcher.group().chars().filter(c -> c == '\n').count();
    }
    tokens.add("");
    lines.add(line);
  }

  List<StubClass> classes() throws StubSyntaxException {
    List<StubClass> found = new ArrayList<>();
    String prefix = "";
    while (!peek().isEmpty()) {
      if (take("package")) {
        prefix = name() + ".";
        expect(";");
      } else if (take("import")) {
        while (!take(";")) {
          next();
        }
      } else if (!take(";")) {
        found.add(stubClass(prefix));
      }
    }
    return found;
  }

  private StubClass stubClass(String prefix) throws StubSyntaxException {
    List<AnnotationData> annotations = modifiers();
    if (!take("class") && !take("interface")) {
      throw wrong("class or interface");
    }
    String simple = word();
    StubClass found = new StubClass(prefix + simple, annotations);
    while (!take("{")) {
      next();
    }
    while (!take("}")) {
      if (!take(";")) {
        member(found, simple);
      }
    }
    return found;
  }

  private void member(StubClass owner, String simple) throws StubSyntaxException {
    List<AnnotationData> annotations = modifiers();
    String type = type();
    if (peek().equals("(") && type.equals(simple)) {
      owner.members().add(rest("<init>", annotations));
      return;
    }
    annotations.addAll(modifiers());
    String name = word();
    if (peek().equals("(")) {
      owner.members().add(rest(name, annotations));
      return;
    }
    while (!take(";")) {
      next();
    }
  }

  private StubClass.Member rest(String name, List<AnnotationData> annotations)
      throws StubSyntaxException {
    List<String> types = new ArrayList<>();
    List<List<AnnotationData>> marks = new ArrayList<>();
    List<AnnotationData> receiver = List.of();
    expect("(");
    while (!take(")")) {
      List<AnnotationData> parameter = modifiers();
      String type = type();
      parameter.addAll(modifiers());
      if (take("...")) {
        type += "[]";
      }
      if (take("this")) {
        receiver = parameter;
      } else {
        word();
        types.add(type);
        marks.add(parameter);
      }
      take(",");
    }
    while (!take(";")) {
      next();
    }
    return new StubClass.Member(name, types, Marks.of(annotations, receiver, marks));
  }

  /** The last identifier of a type, with brackets. */
  private String type() throws StubSyntaxException {
    String found = name();
    String last = found.substring(found.lastIndexOf('.') + 1);
    while (take("[")) {
      expect("]");
      last += "[]";
    }
    return last;
  }

  private List<AnnotationData> modifiers() throws StubSyntaxException {
    List<AnnotationData> annotations = new ArrayList<>();
    while (true) {
      if (take("@")) {
        annotations.add(annotation());
      } else if (MODIFIERS.contains(peek())) {
        next();
      } else {
        return annotations;
      }
    }
  }

  private AnnotationData annotation() throws StubSyntaxException {
    String name = name();
    Map<String, List<String>> values = new LinkedHashMap<>();
    if (take("(")) {
      while (!take(")")) {
        String element = "value";
        if (tokens.get(at + 1).equals("=")) {
          element = word();
          expect("=");
        }
        values.put(element, texts());
        take(",");
      }
    }
    return new AnnotationData(name.substring(name.lastIndexOf('.') + 1), values);
  }

  private List<String> texts() throws StubSyntaxException {
    List<String> found = new ArrayList<>();
    if (take("{")) {
      while (!take("}")) {
        found.addAll(texts());
        take(",");
      }
      return found;
    }
    String token = next();
    if (!token.startsWith("\"")) {
      throw wrong("a text");
    }
    found.add(token.substring(1, token.length() - 1));
    return found;
  }

  private String name() throws StubSyntaxException {
    StringBuilder found = new StringBuilder(word());
    while (peek().equals(".")) {
      next();
      found.append('.').append(word());
    }
    return found.toString();
  }

  private String word() throws StubSyntaxException {
    String token = next();
    if (token.isEmpty() || !Character.isJavaIdentifierStart(token.charAt(0))) {
      at--;
      throw wrong("a name");
    }
    return token;
  }

  private String peek() {
    return tokens.get(at);
  }

  private String next() throws StubSyntaxException {
    if (peek().isEmpty()) {
      throw wrong("more");
    }
    return tokens.get(at++);
  }

  private boolean take(String token) {
    if (peek().equals(token)) {
      at++;
      return true;
    }
    return false;
  }

  private void expect(String token) throws StubSyntaxException {
    if (!take(token)) {
      throw wrong("'" + token + "'");
    }
  }

  private StubSyntaxException wrong(String wanted) {
    String found = peek().isEmpty() ? "the end" : "'" + peek() + "'";
    return new StubSyntaxException(file + ":" + lines.get(at) + ": " + wanted + " expected, "
        + found + " found");
  }
}
