package rlc.front.output;

import java.util.ArrayList;
import java.util.LinkedHashSet;
import java.util.List;
import java.util.Map;
import java.util.Set;
import javax.lang.model.element.ExecutableElement;
import rlc.front.lowering.Program;
import rlc.front.project.Attribution;
import rlc.front.signatures.Signature;
import rlc.front.signatures.SignatureText;
import rlc.front.skeleton.LoweredType;
import rlc.front.skeleton.Printer;

/**
 * Writes the stub: as {@code rlc} reads it, and as Java source with empty bodies for the compiler.
 */
public final class StubWriter {
  private static final int JUMPS = 64;

  private final Program program;
  private final Set<LoweredType> asked;
  private final int marks;
  private boolean java;

  StubWriter(Program program, Set<LoweredType> asked, int marks) {
    this.program = program;
    this.asked = asked;
    this.marks = marks;
  }

  /** The stub file. */
  public String stubFile() {
    java = false;
    return text();
  }

  /** The same as a Java source. */
  public String javaFile() {
    java = true;
    return text();
  }

  /** The signature that a line of the stub file declares, or null. */
  public Signature signatureAt(int line) {
    String text = stubFile().lines().skip(line - 1L).findFirst().orElse("");
    return program.signatures().used().values().stream()
        .flatMap(List::stream)
        .filter(it -> text.equals("  " + SignatureText.stubLine(it) + body()))
        .findFirst()
        .orElse(null);
  }

  private String text() {
    List<String> signatures = new ArrayList<>();
    for (Map.Entry<String, List<Signature>> entry : program.signatures().used().entrySet()) {
      signatures.add((java ? "" : "public ") + "class " + entry.getKey() + " {");
      entry.getValue().forEach(it -> signatures.add("  " + SignatureText.stubLine(it) + body()));
      signatures.add("}");
    }
    List<String> types = new ArrayList<>();
    program.types().allMade().forEach(it -> made(it, types));
    // A type that is written may name others that were not asked for before.
    for (int i = 0; i < program.types().declared().size(); i++) {
      type(program.types().declared().get(i), types);
    }
    StringBuilder text = new StringBuilder("package p;\n");
    types.forEach(it -> text.append(it).append('\n'));
    helpers(text);
    signatures.forEach(it -> text.append(it).append('\n'));
    return text.toString();
  }

  private String body() {
    return java ? " { throw new RuntimeException(); }" : ";";
  }

  private void type(LoweredType type, List<String> lines) {
    if (!type.name().contains("_")) {
      return;
    }
    List<LoweredType> above = program.types().supers(type);
    String access = java ? "" : "public ";
    if (type.kind() == LoweredType.Kind.EXCEPTION) {
      String name = above.isEmpty() ? "Throwable" : above.get(0).name();
      lines.add(access + "class " + type.name() + " extends " + name + " { public " + type.name()
          + "()" + (java ? " { }" : ";")
          + " }");
      return;
    }
    List<String> names = above.stream().map(LoweredType::name).toList();
    List<String> must = program.types().mustCallOf(type.element());
    lines.add("@InheritableMustCall(" + SignatureText.list(must) + ") " + access + "interface "
        + type.name()
        + (names.isEmpty() ? "" : " extends " + String.join(", ", names)) + " {");
    for (String name : program.types().namesOf(type)) {
      lines.add("  " + namedMethod(type, name) + ";");
    }
    lines.add("}");
  }

  /** A class of which new objects are made. */
  private void made(LoweredType type, List<String> lines) {
    String above = program.types().of(type.element()).name();
    StringBuilder line = new StringBuilder((java ? "" : "public ") + "class " + type.name()
        + " implements " + above + " { public "
        + type.name() + "()" + (java ? " { }" : ";"));
    for (String name : program.types().namesOf(type)) {
      line.append(" public ").append(namedMethod(type, name)).append(body());
    }
    lines.add(line.append(" }").toString());
  }

  /**
   * A method that is called by its own name: what its signature says, as far as every class above
   * says it, too.
   */
  private String namedMethod(LoweredType type, String name) {
    ExecutableElement method = program.types().methodOf(type.element(), name);
    Signature signature = program.signatures().of(method);
    boolean resets = !signature.resets().isEmpty()
        && program.annotations().overriddenBy(method).stream()
            .filter(it -> program.types().of(Attribution.enclosing(it))
                .kind() == LoweredType.Kind.RESOURCE)
            .allMatch(it -> !program.signatures().of(it).resets().isEmpty());
    String receiver = signature.aliasedReceiver() ? "@MustCallAlias " + type.name() + " this" : "";
    return SignatureText.namedAnnotations(signature, resets) + signature.result().name() + " "
        + name + "(" + receiver + ")"
        + Printer.thrown(program.types().thrownBy(type.element(), name));
  }

  /** The helpers of every lowered program. */
  private void helpers(StringBuilder text) {
    String access = java ? "" : "public ";
    for (int i = 0; i < JUMPS; i++) {
      text.append(access + "class Jump" + i + " extends Throwable { public Jump" + i + "()"
          + (java ? " { }" : ";") + " }\n");
    }
    for (int i = 0; i <= marks; i++) {
      text.append(access + "class Mark" + i + " { }\n");
    }
    text.append(access + "class Rt {\n  public static boolean b()" + body() + "\n");
    text.append("  public static boolean use(Object o)" + body() + "\n");
    for (LoweredType it : new LinkedHashSet<>(asked)) {
      text.append("  public static @NotOwning " + it.name() + " some_" + it.name() + "(boolean b)"
          + body() + "\n");
    }
    text.append("}\n");
  }
}
