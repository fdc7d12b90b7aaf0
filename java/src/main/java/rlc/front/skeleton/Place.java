package rlc.front.skeleton;

import com.sun.source.tree.Tree;

/**
 * A place of the source that a token of the lowered text leads back to.
 *
 * @param tree the tree of the compiler that the token was made from
 * @param end whether its end is meant, the closing brace of a body
 */
public record Place(Tree tree, boolean end) {

  /** The place of a tree, or null where there is none. */
  public static Place of(Tree tree) {
    return tree == null ? null : new Place(tree, false);
  }

  /** The end of a tree. */
  public static Place endOf(Tree tree) {
    return new Place(tree, true);
  }
}
