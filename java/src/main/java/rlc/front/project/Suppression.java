package rlc.front.project;

import com.sun.source.tree.Tree;
import com.sun.source.util.TreeScanner;
import java.util.Collections;
import java.util.IdentityHashMap;
import java.util.Set;
import java.util.regex.Pattern;
import javax.lang.model.element.Element;
import javax.lang.model.element.TypeElement;

/**
 * What the user does not want to be told: by {@code @SuppressWarnings}, or by the names of classes
 * that the options skip.
 */
public final class Suppression {
  private static final Set<String> WORDS =
      Set.of("rlc", "resourceleak", "required.method.not.called");

  private final Pattern skipped;
  private final Set<Tree> trees = Collections.newSetFromMap(new IdentityHashMap<>());

  /** With the pattern of the qualified names of classes to skip, or null. */
  public Suppression(Pattern skipped) {
    this.skipped = skipped;
  }

  /** Says whether an element, or one round it, is not to be checked. */
  public boolean covers(Element element) {
    for (Element at = element; at != null; at = at.getEnclosingElement()) {
      if (isAnnotated(at)
          || skipped != null && at
              instanceof TypeElement type && skipped.matcher(type.getQualifiedName()).find()) {
        return true;
      }
    }
    return false;
  }

  /** Says whether an element has the annotation itself. */
  public static boolean isAnnotated(Element element) {
    SuppressWarnings found = element.getAnnotation(SuppressWarnings.class);
    if (found != null) {
      for (String it : found.value()) {
        if (WORDS.contains(it)) {
          return true;
        }
      }
    }
    return false;
  }

  /** Notes the declaration of a local variable whose obligations are not to be told. */
  public void addTree(Tree tree) {
    new TreeScanner<Void, Void>() {
      @Override
      public Void scan(Tree inner, Void unused) {
        if (inner != null) {
          trees.add(inner);
        }
        return super.scan(inner, null);
      }
    }.scan(tree, null);
  }

  /** Says whether a tree stands in such a declaration. */
  public boolean covers(Tree tree) {
    return trees.contains(tree);
  }
}
