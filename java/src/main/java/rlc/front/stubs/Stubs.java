package rlc.front.stubs;

import java.io.BufferedReader;
import java.io.IOException;
import java.io.InputStream;
import java.io.InputStreamReader;
import java.nio.charset.StandardCharsets;
import java.nio.file.Files;
import java.nio.file.Path;
import java.util.HashMap;
import java.util.List;
import java.util.Map;
import java.util.Optional;
import java.util.Set;
import java.util.TreeSet;
import java.util.stream.Collectors;
import rlc.front.signatures.AnnotationData;
import rlc.front.signatures.Marks;

/**
 * The stub files of a run: those that come with the front, and the user's own, of which the later
 * replace single members.
 */
public final class Stubs {
  private static final String INDEX = "/rlc/stubs/index";

  private final Map<String, StubClass> classes = new HashMap<>();
  private final Set<String> ofUser = new TreeSet<>();

  /** Without any file. */
  public Stubs() {}

  /** Reads the files that come with the front. */
  public void addBundled() throws IOException, StubSyntaxException {
    try (InputStream index = Stubs.class.getResourceAsStream(INDEX)) {
      if (index == null) {
        return;
      }
      BufferedReader reader =
          new BufferedReader(new InputStreamReader(index, StandardCharsets.UTF_8));
      for (String name : reader.lines().collect(Collectors.toList())) {
        try (InputStream file = Stubs.class.getResourceAsStream("/rlc/stubs/" + name)) {
          add(name, new String(file.readAllBytes(), StandardCharsets.UTF_8), false);
        }
      }
    }
  }

  /** Reads a file of the user. */
  public void addFile(Path path) throws IOException, StubSyntaxException {
    add(path.toString(), Files.readString(path), true);
  }

  private void add(String file, String text, boolean user) throws StubSyntaxException {
    for (StubClass found : new StubParser(file, text).classes()) {
      StubClass old = classes.get(found.name());
      if (old != null) {
        old.members().stream()
            .filter(it -> memberOf(found, it.name(), it.parameters()).isEmpty())
            .forEach(found.members()::add);
      }
      classes.put(found.name(), found.annotations().isEmpty() && old != null
          ? merged(old, found) : found);
      if (user) {
        ofUser.add(found.name());
      }
    }
  }

  private static StubClass merged(StubClass old, StubClass found) {
    StubClass both = new StubClass(found.name(), old.annotations());
    both.members().addAll(found.members());
    return both;
  }

  private static Optional<StubClass.Member> memberOf(StubClass owner, String name,
      List<String> parameters) {
    return owner.members().stream()
        .filter(it -> it.name().equals(name) && it.parameters().equals(parameters))
        .findFirst();
  }

  /** The annotations of a class, none where no stub has it. */
  public List<AnnotationData> annotationsOf(String qualified) {
    StubClass found = classes.get(qualified);
    return found == null ? List.of() : found.annotations();
  }

  /**
   * What is said of a member, by its class, its name and the last identifiers of its erased
   * parameters.
   */
  public Optional<Marks> marksOf(String qualified, String name, List<String> parameters) {
    StubClass found = classes.get(qualified);
    return found == null
        ? Optional.empty()
        : memberOf(found, name, parameters).map(StubClass.Member::marks)
            .filter(it -> !it.isEmpty());
  }

  /** Says whether a file of the user speaks of a class. */
  public boolean isOfUser(String qualified) {
    return ofUser.contains(qualified);
  }

  /** All names of methods that annotations of the stubs name. */
  public Set<String> methodNames() {
    Set<String> names = new TreeSet<>();
    for (StubClass it : classes.values()) {
      it.annotations().forEach(data -> names.addAll(data.texts("value")));
      for (StubClass.Member member : it.members()) {
        member.marks().promises().forEach(promise -> names.addAll(promise.methods()));
        member.marks().parameters().forEach(parameter -> names.addAll(parameter.called()));
      }
    }
    return names;
  }
}
