package rlc.front.reports;

import com.sun.source.tree.AssignmentTree;
import com.sun.source.tree.ExpressionTree;
import com.sun.source.tree.IdentifierTree;
import com.sun.source.tree.MemberReferenceTree;
import com.sun.source.tree.MemberSelectTree;
import com.sun.source.tree.MethodInvocationTree;
import com.sun.source.tree.NewClassTree;
import com.sun.source.tree.ReturnTree;
import com.sun.source.tree.ThrowTree;
import com.sun.source.tree.Tree;
import com.sun.source.tree.VariableTree;
import com.sun.source.util.Trees;
import java.util.IdentityHashMap;
import java.util.LinkedHashSet;
import java.util.List;
import java.util.Map;
import java.util.Set;
import rlc.front.project.Attribution;
import rlc.front.project.SourceBody;
import rlc.front.project.SourceText;
import rlc.front.skeleton.Place;

/** Says in words what is not called, on what, on which ways, and what would help. */
public final class Wording {
  private static final int MOST_WAYS = 5;

  private final Trees trees;
  private final Map<Object, SourceText> texts = new IdentityHashMap<>();

  /** With the trees of a compilation. */
  public Wording(Trees trees) {
    this.trees = trees;
  }

  /** The whole message of a finding. */
  public String messageOf(Finding finding) {
    Fault first = finding.faults().get(0);
    StringBuilder message = new StringBuilder("[rlc] ").append(headOf(first));
    Set<String> ways = new LinkedHashSet<>();
    finding.faults().forEach(it -> ways.add(wayOf(it)));
    int told = 0;
    for (String way : ways) {
      if (told++ == MOST_WAYS) {
        message.append("\n  and ").append(ways.size() - MOST_WAYS).append(" more");
        break;
      }
      message.append("\n  ").append(way);
    }
    String help = helpFor(first);
    return help.isEmpty()
        ? message.toString() : message.append("\n  help: ").append(help).toString();
  }

  /** The line of a place in the file of a body. */
  public long lineOf(SourceBody body, Place place) {
    if (place == null) {
      return 0;
    }
    SourceText text = texts.computeIfAbsent(body.unit(), it -> new SourceText(trees, body.unit()));
    return place.end() ? text.endLineOf(place.tree()) : text.lineOf(place.tree());
  }

  private static String simple(String lowered) {
    return lowered.replaceFirst("(_\\d+)?(_I)?$", "");
  }

  private static String names(Fault fault) {
    return fault.names().isEmpty()
        ? "what must be called"
        : String.join("() and ", fault.names()) + "()";
  }

  private String headOf(Fault fault) {
    String type = simple(fault.type());
    String what = switch (fault.kind()) {
      case "new" -> "the " + type + " that is made here";
      case "result" -> resultOf(fault.origin(), type);
      case "param" -> "the " + type + " that the parameter " + declaredName(fault.origin())
          + " holds";
      case "field" -> fault.origin() != null && fault.origin().tree() instanceof VariableTree
          ? "what the field " + declaredName(fault.origin()) + " holds"
          : "what the super class holds";
      case "this" -> "this " + type;
      case "super" -> "what the super class holds";
      default -> "a " + type;
    };
    return switch (fault.rule()) {
      case "lost", "exit", "throw", "ctor.throw" -> names(fault) + " may not be called on " + what;
      case "overwritten" -> names(fault) + " may not be called on " + what
          + " before another is stored";
      case "not.owned" -> what + " is given away, but not owned here";
      case "reset.not.owned" -> "the obligation of " + what
          + " is created anew, but it is not owned here";
      case "narrow" -> what + " is given to a place whose type knows nothing of " + names(fault);
      case "ensures" -> "the method promises " + names(fault) + " on " + what
          + ", and does not call it on every way";
      case "alias.kept" -> "the result is not one resource with " + what
          + ", as @MustCallAlias says";
      case "twice" -> what + " is given away twice in one call";
      case "called.missing" -> names(fault) + " must be called on " + what + " before";
      case "reset.missing" ->
          "the method creates the obligation of this object anew, and does not say so";
      default -> fault.rule() + ": " + what;
    };
  }

  private static String resultOf(Place origin, String type) {
    Tree tree = origin == null ? null : origin.tree();
    if (tree instanceof NewClassTree) {
      return "the " + type + " that is made here";
    }
    if (tree instanceof MethodInvocationTree) {
      String name = calledName(origin);
      boolean constructor = name.equals("super") || name.equals("this");
      return constructor ? "what the super class holds"
          : "the " + type + " that " + name + " gives";
    }
    if (tree instanceof MemberReferenceTree) {
      return "the " + type + " that the method reference gives";
    }
    return tree instanceof VariableTree
        ? "what " + declaredName(origin) + " is given here" : "the " + type + " that is read here";
  }

  private static String calledName(Place place) {
    if (place != null && place.tree() instanceof MethodInvocationTree call) {
      ExpressionTree select = call.getMethodSelect();
      if (select instanceof MemberSelectTree it) {
        return it.getIdentifier().toString();
      }
      if (select instanceof IdentifierTree it) {
        return it.getName().toString();
      }
    }
    return place != null && place.tree() instanceof NewClassTree creation
        ? "new " + creation.getIdentifier() : "the call";
  }

  private static String declaredName(Place place) {
    return place != null && place.tree() instanceof VariableTree variable
        ? variable.getName().toString() : "here";
  }

  /** One way on which it is broken: its line and its cause. */
  private String wayOf(Fault fault) {
    Fault.Step thrower = null;
    for (Fault.Step step : fault.steps()) {
      boolean jump = step.thrown() != null && step.thrown().matches("Jump\\d+");
      thrower = step.thrown() != null && !jump ? step : step.word().equals("catch")
          ? null : thrower;
    }
    boolean byException = thrower != null
        && (fault.rule().contains("throw") || fault.rule().equals("lost"));
    if (byException) {
      String line = "line " + lineOf(fault.body(), thrower.place()) + ": ";
      boolean explicit = thrower.place() != null && thrower.place().tree() instanceof ThrowTree;
      return line + (explicit ? "throw of " : calledName(thrower.place()) + " may throw ")
          + simple(thrower.thrown());
    }
    String line = "line " + lineOf(fault.body(), fault.place()) + ": ";
    Tree tree = fault.place() == null ? null : fault.place().tree();
    return line + switch (fault.rule()) {
      case "lost" -> "nothing holds it any more";
      case "exit", "ensures" -> fault.place() != null && fault.place().end()
          ? "the end of the body"
          : tree instanceof ReturnTree ? "return" : "the body ends";
      case "overwritten" -> "another is stored";
      default -> useOf(tree, fault.place());
    };
  }

  private static String useOf(Tree tree, Place place) {
    if (tree instanceof MethodInvocationTree || tree instanceof NewClassTree) {
      return "in the call of " + calledName(place);
    }
    return tree instanceof ReturnTree ? "returned" : tree instanceof AssignmentTree
        ? "stored" : "here";
  }

  private static String helpFor(Fault fault) {
    return switch (fault.rule()) {
      case "lost", "exit", "throw" -> helpForLost(fault);
      case "ctor.throw" -> "catch the exception, close what the field holds, and throw again";
      case "not.owned" -> fault.kind().equals("param")
          ? "@Owning on the parameter " + declaredName(fault.origin())
              + ", or @MustCallAlias on it and on the constructor or method"
          : "@NotOwning on what it is given to, or on the method's result";
      case "reset.missing", "reset.not.owned" -> "@CreatesMustCallFor(\"this\") on the method";
      case "overwritten" -> "close the old content before the store";
      default -> "";
    };
  }

  private static String helpForLost(Fault fault) {
    if (fault.kind().equals("param")) {
      return "close it on every way, best by try (" + declaredName(fault.origin()) + ") { .. }";
    }
    String taker = takerOf(fault);
    if (taker != null) {
      return "a try with resources; or, if " + taker
          + " takes it over, @Owning or @MustCallAlias on its parameter";
    }
    Tree origin = fault.origin() == null ? null : fault.origin().tree();
    return origin instanceof MethodInvocationTree
        ? "a try with resources; or, if the caller does not own it, @NotOwning on "
            + calledName(fault.origin())
        : "a try with resources";
  }

  /** What is called with the new object itself as an argument, on the way to its loss; or null. */
  private static String takerOf(Fault fault) {
    Tree origin = fault.origin() == null ? null : fault.origin().tree();
    for (Fault.Step step : fault.steps()) {
      Tree tree = step.place() == null ? null : step.place().tree();
      List<? extends ExpressionTree> arguments =
          tree instanceof NewClassTree made ? made.getArguments()
              : tree instanceof MethodInvocationTree call ? call.getArguments() : List.of();
      if (arguments.stream().anyMatch(it -> Attribution.strip(it) == origin)) {
        return calledName(step.place());
      }
    }
    return null;
  }

  /** What a body is called in messages. */
  public static String nameOf(SourceBody body) {
    String type = body.owner().getSimpleName().toString();
    return (type.isEmpty() ? "an anonymous class" : type) + "." + body.name();
  }
}
