package rlc.front.lowering;

import com.sun.source.tree.Tree;
import java.util.ArrayDeque;
import java.util.ArrayList;
import java.util.Deque;
import java.util.List;
import javax.lang.model.element.Name;
import rlc.front.project.NotLowered;
import rlc.front.skeleton.Expr;
import rlc.front.skeleton.LoweredType;
import rlc.front.skeleton.Place;
import rlc.front.skeleton.Stmt;

/**
 * The statements that a jump may leave (JLS 14.15, 14.16, 14.21). A jump to the innermost loop of
 * the lowered text stays what it is; any other throws an exception of its own, which its target
 * catches. Such an exception runs the same finally blocks, and no catch clause of the source takes
 * it.
 */
final class Jumps {
  /** The classes of exceptions of jumps, which the stub declares. */
  static final int MOST = 64;

  /** A statement that a jump may leave. */
  static final class Target {
    private final Tree tree;
    private final Name label;
    private final boolean lowersToLoop;
    private final boolean takesBreak;
    private final boolean takesContinue;
    private final List<LoweredType> closeThrows;
    private String breakMarker;
    private String continueMarker;

    private Target(Tree tree, Name label, boolean lowersToLoop, boolean takesBreak,
        boolean takesContinue,
        List<LoweredType> closeThrows) {
      this.tree = tree;
      this.label = label;
      this.lowersToLoop = lowersToLoop;
      this.takesBreak = takesBreak;
      this.takesContinue = takesContinue;
      this.closeThrows = closeThrows;
    }
  }

  private final Deque<Target> open = new ArrayDeque<>();
  private int number;

  /** Begins a loop. */
  Target loop(Tree tree, Name label) {
    return push(new Target(tree, label, true, true, true, List.of()));
  }

  /** Begins a switch, which is lowered to a loop where a break stands within. */
  Target choice(Tree tree, Name label, boolean lowersToLoop) {
    return push(new Target(tree, label, lowersToLoop, true, false, List.of()));
  }

  /** Begins a statement that only a jump with a label, or one that names the tree, leaves. */
  Target labelled(Tree tree, Name label) {
    return push(new Target(tree, label, false, false, false, List.of()));
  }

  /** Begins a try statement with resources, whose closing throws what is given. */
  Target resources(Tree tree, List<LoweredType> closeThrows) {
    return push(new Target(tree, null, false, false, false, closeThrows));
  }

  private Target push(Target target) {
    open.push(target);
    return target;
  }

  /** Ends the statement that was begun last. */
  void end() {
    open.pop();
  }

  /** A break without a label, or with one. */
  List<Stmt> breakTo(Name label, Place place) {
    for (Target it : open) {
      if (label == null ? it.takesBreak : label.equals(it.label)) {
        return leave(it, false, place);
      }
    }
    throw new NotLowered("a break to a statement that is not there");
  }

  /** A continue without a label, or with one. */
  List<Stmt> continueTo(Name label, Place place) {
    for (Target it : open) {
      if (it.takesContinue && (label == null || label.equals(it.label))) {
        return leave(it, true, place);
      }
    }
    throw new NotLowered("a continue of a loop that is not there");
  }

  /** A jump to the end of the innermost statement that was begun with a tree. */
  List<Stmt> leave(Tree tree, Place place) {
    for (Target it : open) {
      if (it.tree == tree) {
        return leave(it, false, place);
      }
    }
    throw new NotLowered("a jump to a statement that is not there");
  }

  /** Whether a statement that a tree began is open. */
  boolean isOpen(Tree tree) {
    return open.stream().anyMatch(it -> it.tree == tree);
  }

  private List<Stmt> leave(Target target, boolean forward, Place place) {
    Target nearest = open.stream().filter(it -> it.lowersToLoop).findFirst().orElse(null);
    if (nearest == target) {
      return List.of(forward ? new Stmt.Continue(place) : new Stmt.Break(place));
    }
    List<Stmt> found = new ArrayList<>();
    for (Target it : open) {
      if (it == target) {
        break;
      }
      // A close that throws when the block is left by a jump would be suppressed behind the
      // exception of the jump.
      for (LoweredType type : it.closeThrows) {
        Stmt throwing = new Stmt.Throw(Expr.some(type), place);
        found.add(new Stmt.If(Expr.PURE, new Stmt.Block(List.of(throwing)), null, place));
      }
    }
    String marker = forward ? target.continueMarker : target.breakMarker;
    if (marker == null) {
      if (number == MOST) {
        throw new NotLowered("more than " + MOST + " jumps to outer statements");
      }
      marker = "Jump" + number++;
      if (forward) {
        target.continueMarker = marker;
      } else {
        target.breakMarker = marker;
      }
    }
    found.add(new Stmt.Throw(new Expr.Make(typeOf(marker), place), place));
    return found;
  }

  /** The exceptions of jumps to statements that are open. */
  List<LoweredType> openMarkers() {
    List<LoweredType> found = new ArrayList<>();
    for (Target it : open) {
      for (String marker : new String[] {it.breakMarker, it.continueMarker}) {
        if (marker != null) {
          found.add(typeOf(marker));
        }
      }
    }
    return found;
  }

  private static LoweredType typeOf(String marker) {
    return new LoweredType(LoweredType.Kind.EXCEPTION, marker, null);
  }

  /** The body of a loop, with the continues of it that come from inner statements caught. */
  Stmt.Block body(Target target, List<Stmt> statements) {
    return new Stmt.Block(target.continueMarker == null
        ? statements : List.of(caught(target.continueMarker, statements)));
  }

  /** A statement with the breaks to its end that come from inner statements caught. */
  List<Stmt> whole(Target target, List<Stmt> statements) {
    return target.breakMarker == null
        ? statements : List.of(caught(target.breakMarker, statements));
  }

  private Stmt caught(String marker, List<Stmt> statements) {
    Stmt.Catch clause = new Stmt.Catch(List.of(typeOf(marker)), "jump_" + marker,
        new Stmt.Block(List.of()), null);
    return new Stmt.Try(List.of(), new Stmt.Block(statements), List.of(clause), null, null);
  }
}
