import java.io.IOException;
import java.io.PrintStream;
import java.lang.reflect.Constructor;
import java.lang.reflect.Executable;
import java.lang.reflect.Field;
import java.lang.reflect.Method;
import java.lang.reflect.Modifier;
import java.nio.file.DirectoryStream;
import java.nio.file.Files;
import java.nio.file.Path;
import java.util.ArrayList;
import java.util.Arrays;
import java.util.LinkedHashMap;
import java.util.LinkedHashSet;
import java.util.List;
import java.util.Map;
import java.util.Set;
import java.util.TreeMap;
import java.util.TreeSet;
import java.util.regex.Matcher;
import java.util.regex.Pattern;
import java.util.stream.Collectors;

/**
 * Stub files and the library of the JDK that runs this. It is run at the top of the repository.
 *
 * <pre>
 * java stubs/JdkStubs.java check              compares each member of stubs/*.astub with the JDK
 * java stubs/JdkStubs.java skeleton CLASS..   prints stubs of these classes, without annotations
 * java stubs/JdkStubs.java omitted [CLASS..]  prints the members that the stubs of these classes (of all) do not have, and why
 * java stubs/JdkStubs.java uses FILE..        prints the stub files that these need, and what those need, themselves included
 * </pre>
 */
public final class JdkStubs {
    /** The classes of {@code java.lang} that the checker brings along. No stub file can declare them. */
    private static final Set<String> CORE = Set.of("Object", "String", "Throwable", "Exception", "Error", "RuntimeException",
            "IllegalArgumentException", "IllegalStateException", "NumberFormatException", "NullPointerException", "ArithmeticException",
            "ClassCastException", "NegativeArraySizeException", "IndexOutOfBoundsException", "ArrayIndexOutOfBoundsException",
            "AutoCloseable", "Integer");
    /** How many arguments in the place of varargs have a method of their own. */
    private static final int MOST_ARGUMENTS = 3;
    private static final Set<String> PRIMITIVES = Set.of("boolean", "byte", "char", "int", "long");

    private final Path folder;
    /** The declared classes, by qualified name, each with its file. */
    private final Map<String, Path> known = new TreeMap<>();
    private final List<Declared> declared = new ArrayList<>();

    /** A class as a stub file declares it. All types are qualified names. */
    record Declared(Path file, int line, String name, Set<String> modifiers, boolean isInterface, String superClass,
            Set<String> interfaces, List<Member> members) { }

    /** A member: {@code name} is {@code <init>} for a constructor; {@code parameters} is null for a field. */
    record Member(int line, Set<String> modifiers, String result, String name, List<String> parameters, List<String> thrown) {
        String key() {
            return parameters == null ? name : name + "(" + String.join(", ", parameters) + ")";
        }

        /** What has to be the same in the stub and in the JDK. */
        String shape() {
            Set<String> kept = new TreeSet<>(modifiers);
            kept.retainAll(Set.of("static", "final", "protected", "private", "abstract"));
            return kept + " " + result + " " + key() + " throws " + new TreeSet<>(thrown);
        }
    }

    private JdkStubs(Path folder) {
        this.folder = folder;
        for (String name : CORE) {
            known.put("java.lang." + name, Path.of("core.astub"));
        }
    }

    public static void main(String[] words) throws IOException, ClassNotFoundException {
        JdkStubs stubs = new JdkStubs(Path.of("stubs"));
        List<String> names = Arrays.asList(words).subList(Math.min(1, words.length), words.length);
        stubs.read();
        switch (words.length == 0 ? "" : words[0]) {
            case "check" -> System.exit(stubs.check() ? 0 : 1);
            case "skeleton" -> stubs.printSkeleton(names);
            case "omitted" -> stubs.printOmitted(names);
            case "uses" -> stubs.printUses(names);
            default -> {
                System.err.println("usage: java stubs/JdkStubs.java check | skeleton CLASS.. | omitted [CLASS..] | uses FILE..");
                System.exit(3);
            }
        }
    }

    // ---- What the JDK has ----

    private static Class<?> load(String name) throws ClassNotFoundException {
        return Class.forName(name, false, ClassLoader.getPlatformClassLoader());
    }

    private static boolean isVisible(int modifiers) {
        return Modifier.isPublic(modifiers) || Modifier.isProtected(modifiers);
    }

    /** The nearest class above that others may name. */
    private static Class<?> visibleSuper(Class<?> of) {
        Class<?> above = of.getSuperclass();
        while (above != null && !Modifier.isPublic(above.getModifiers())) {
            above = above.getSuperclass();
        }
        return above;
    }

    /** The class and those above it that others may not name, whose members are as if it had them. */
    private static List<Class<?>> withHidden(Class<?> of) {
        List<Class<?>> all = new ArrayList<>();
        for (Class<?> at = of; at != null && (at == of || !Modifier.isPublic(at.getModifiers())); at = at.getSuperclass()) {
            all.add(at);
        }
        return all;
    }

    /** The interfaces directly above. Those that no stub declares are left out, unless they have an obligation. */
    private Set<String> visibleInterfaces(Class<?> of) {
        Set<String> names = new LinkedHashSet<>();
        for (Class<?> at : withHidden(of)) {
            for (Class<?> above : at.getInterfaces()) {
                if (!Modifier.isPublic(above.getModifiers())) {
                    names.addAll(visibleInterfaces(above));
                } else if (known.containsKey(above.getName()) || AutoCloseable.class.isAssignableFrom(above)) {
                    names.add(above.getName());
                }
            }
        }
        return names;
    }

    /** Why a type can have no place in a stub, or null. */
    private String fault(Class<?> type, boolean asResult) {
        if (asResult && type == void.class) {
            return null;
        }
        if (type.isArray()) {
            Class<?> part = type.getComponentType();
            return part == String.class || part.isPrimitive() && PRIMITIVES.contains(part.getName()) ? null
                    : part.isPrimitive() ? "the type " + part.getName() : "an array over " + part.getTypeName();
        }
        if (type.isPrimitive()) {
            return PRIMITIVES.contains(type.getName()) ? null : "the type " + type.getName();
        }
        return known.containsKey(type.getName()) ? null : "the class " + type.getName();
    }

    /** Why a member can have no place in a stub, or null. A last parameter that takes varargs is not asked. */
    private String fault(Executable member) {
        Class<?>[] parameters = member.getParameterTypes();
        for (int at = 0; at < parameters.length; at++) {
            boolean isLast = member.isVarArgs() && at == parameters.length - 1;
            String fault = fault(isLast ? parameters[at].getComponentType() : parameters[at], false);
            if (fault != null) {
                return fault;
            }
        }
        for (Class<?> thrown : member.getExceptionTypes()) {
            if (fault(thrown, false) != null) {
                return "throws " + fault(thrown, false);
            }
        }
        if (member instanceof Method method) {
            if (method.getDeclaringClass().isInterface() && Modifier.isStatic(method.getModifiers())) {
                return "a static method of an interface";
            }
            return fault(method.getReturnType(), true);
        }
        return null;
    }

    private static Set<String> words(int modifiers) {
        return new LinkedHashSet<>(Arrays.asList(Modifier.toString(modifiers).split(" ")));
    }

    private static List<String> names(Class<?>[] types) {
        return Arrays.stream(types).map(Class::getTypeName).collect(Collectors.toCollection(ArrayList::new));
    }

    /** The members that stand for one of the JDK: more than one where the last parameter takes varargs. */
    private static List<Member> variants(Executable of) {
        Set<String> modifiers = words(of.getModifiers());
        modifiers.retainAll(Set.of("public", "protected", "abstract", "static", "final"));
        if (of.getDeclaringClass().isInterface()) {
            modifiers.clear();
        }
        String result = of instanceof Method method ? method.getReturnType().getTypeName() : "";
        String name = of instanceof Method method ? method.getName() : "<init>";
        List<String> parameters = names(of.getParameterTypes());
        List<String> thrown = names(of.getExceptionTypes());
        if (!of.isVarArgs()) {
            return List.of(new Member(0, modifiers, result, name, parameters, thrown));
        }
        String array = parameters.remove(parameters.size() - 1);
        String part = array.substring(0, array.length() - 2);
        List<Member> all = new ArrayList<>();
        if (part.equals("java.lang.String") || PRIMITIVES.contains(part)) {
            List<String> taken = new ArrayList<>(parameters);
            taken.add(array);
            all.add(new Member(0, modifiers, result, name, taken, thrown));
        }
        for (int count = 0; count <= MOST_ARGUMENTS; count++) {
            all.add(new Member(0, modifiers, result, name, List.copyOf(parameters), thrown));
            parameters.add(part);
        }
        return all;
    }

    /** All members of a class that others may name, as stubs have them; for those that stubs can't have the reason. */
    private Map<String, Member> members(Class<?> of, Map<String, String> omitted) {
        Map<String, Member> all = new LinkedHashMap<>();
        for (Field field : of.getDeclaredFields()) {
            addField(field, all, omitted);
        }
        for (Constructor<?> constructor : of.getDeclaredConstructors()) {
            add(constructor, all, omitted);
        }
        for (Class<?> at : withHidden(of)) {
            Method[] methods = at.getDeclaredMethods();
            Arrays.sort(methods, (one, other) -> Boolean.compare(one.isVarArgs(), other.isVarArgs()));
            for (Method method : methods) {
                if (!method.isBridge() && !method.isSynthetic()) {
                    add(method, all, omitted);
                }
            }
        }
        return all;
    }

    private void addField(Field field, Map<String, Member> all, Map<String, String> omitted) {
        int modifiers = field.getModifiers();
        if (!isVisible(modifiers) || field.isSynthetic()) {
            return;
        }
        Class<?> type = field.getType();
        boolean isConstant = Modifier.isStatic(modifiers) && Modifier.isFinal(modifiers);
        String fault = field.getDeclaringClass().isInterface() ? "a field of an interface"
                : type.isPrimitive() || type == String.class || type.isArray() || !isConstant ? "a field that is no constant of a class type"
                : fault(type, false);
        if (fault != null) {
            omitted.put(field.getName(), fault);
            return;
        }
        Set<String> kept = words(modifiers);
        kept.retainAll(Set.of("public", "protected", "static", "final"));
        Member member = new Member(0, kept, type.getTypeName(), field.getName(), null, List.of());
        all.put(member.key(), member);
    }

    private void add(Executable of, Map<String, Member> all, Map<String, String> omitted) {
        if (!isVisible(of.getModifiers()) || of.isSynthetic()) {
            return;
        }
        String fault = fault(of);
        for (Member member : variants(of)) {
            if (fault != null) {
                omitted.putIfAbsent(member.key(), fault);
            } else {
                all.putIfAbsent(member.key(), member);
            }
        }
    }

    // ---- What the stub files have ----

    private void read() throws IOException {
        List<Path> files = new ArrayList<>();
        try (DirectoryStream<Path> found = Files.newDirectoryStream(folder, "*.astub")) {
            found.forEach(files::add);
        }
        files.sort(null);
        List<StubReader> readers = new ArrayList<>();
        for (Path file : files) {
            StubReader reader = new StubReader(file, Files.readString(file));
            readers.add(reader);
            for (String name : reader.classNames()) {
                known.put(name, file);
            }
        }
        for (StubReader reader : readers) {
            declared.addAll(reader.classes(known.keySet()));
        }
    }

    /** Reads a stub file. Annotations are skipped. */
    private static final class StubReader {
        private static final Pattern TOKEN = Pattern.compile("//[^\n]*|/\\*.*?\\*/|\"[^\"]*\"|[\\p{L}_$][\\p{L}\\p{N}_$]*|\\S", Pattern.DOTALL);
        private static final Set<String> MODIFIERS = Set.of("public", "protected", "private", "static", "final", "abstract");
        private final Path file;
        private final List<String> tokens = new ArrayList<>();
        private final List<Integer> lines = new ArrayList<>();
        private int at;
        private String packageName = "";
        private final Map<String, String> imports = new TreeMap<>();

        StubReader(Path file, String text) {
            this.file = file;
            Matcher matcher = TOKEN.matcher(text);
            int line = 1;
            int from = 0;
            while (matcher.find()) {
                line += (int) text.substring(from, matcher.start()).chars().filter(c -> c == '\n').count();
                from = matcher.start();
                if (!matcher.group().startsWith("//") && !matcher.group().startsWith("/*")) {
                    tokens.add(matcher.group());
                    lines.add(line);
                }
            }
        }

        Set<String> classNames() {
            Set<String> names = new LinkedHashSet<>();
            String of = "";
            for (int k = 0; k + 1 < tokens.size(); k++) {
                if (tokens.get(k).equals("package")) {
                    at = k + 1;
                    of = name();
                } else if (tokens.get(k).equals("class") || tokens.get(k).equals("interface")) {
                    names.add(of + "." + tokens.get(k + 1));
                }
            }
            at = 0;
            return names;
        }

        List<Declared> classes(Set<String> known) {
            List<Declared> all = new ArrayList<>();
            while (at < tokens.size()) {
                if (take("package")) {
                    packageName = name();
                    imports.clear();
                    expect(";");
                } else if (take("import")) {
                    String imported = name();
                    imports.put(imported.substring(imported.lastIndexOf('.') + 1), imported);
                    expect(";");
                } else {
                    all.add(declaration(known));
                }
            }
            return all;
        }

        private Declared declaration(Set<String> known) {
            Set<String> modifiers = modifiers();
            int line = lines.get(at);
            boolean isInterface = tokens.get(at++).equals("interface");
            String name = name();
            String superClass = "java.lang.Object";
            Set<String> interfaces = new LinkedHashSet<>();
            if (take("extends")) {
                if (isInterface) {
                    interfaces.addAll(types(known));
                } else {
                    superClass = type(known);
                }
            }
            if (take("implements")) {
                interfaces.addAll(types(known));
            }
            expect("{");
            List<Member> members = new ArrayList<>();
            while (!take("}")) {
                members.add(member(name, known));
            }
            return new Declared(file, line, packageName + "." + name, modifiers, isInterface, superClass, interfaces, members);
        }

        private Member member(String of, Set<String> known) {
            Set<String> modifiers = modifiers();
            int line = lines.get(at);
            boolean isConstructor = tokens.get(at).equals(of) && tokens.get(at + 1).equals("(");
            String result = isConstructor ? "" : type(known);
            String name = name();
            if (take(";")) {
                return new Member(line, modifiers, result, name, null, List.of());
            }
            expect("(");
            List<String> parameters = new ArrayList<>();
            while (!take(")")) {
                modifiers();
                String type = type(known);
                if (!tokens.get(at++).equals("this")) {
                    parameters.add(type);
                }
                take(",");
            }
            List<String> thrown = take("throws") ? types(known) : List.of();
            expect(";");
            return new Member(line, modifiers, result, isConstructor ? "<init>" : name, parameters, thrown);
        }

        private Set<String> modifiers() {
            Set<String> words = new LinkedHashSet<>();
            while (true) {
                if (take("@")) {
                    name();
                    skipParentheses();
                } else if (MODIFIERS.contains(tokens.get(at))) {
                    words.add(tokens.get(at++));
                } else {
                    return words;
                }
            }
        }

        private void skipParentheses() {
            if (tokens.get(at).equals("(")) {
                int depth = 0;
                do {
                    depth += tokens.get(at).equals("(") ? 1 : tokens.get(at).equals(")") ? -1 : 0;
                    at++;
                } while (depth > 0);
            }
        }

        private List<String> types(Set<String> known) {
            List<String> all = new ArrayList<>();
            do {
                all.add(type(known));
            } while (take(","));
            return all;
        }

        private String type(Set<String> known) {
            String name = name();
            String end = "";
            if (take("[")) {
                expect("]");
                end = "[]";
            }
            if (PRIMITIVES.contains(name) || name.equals("void") || name.contains(".")) {
                return name + end;
            }
            String own = packageName + "." + name;
            return imports.getOrDefault(name, known.contains(own) ? own : "java.lang." + name) + end;
        }

        private String name() {
            StringBuilder name = new StringBuilder(tokens.get(at++));
            while (at < tokens.size() && tokens.get(at).equals(".")) {
                name.append(".").append(tokens.get(at + 1));
                at += 2;
            }
            return name.toString();
        }

        private boolean take(String token) {
            boolean isNext = at < tokens.size() && tokens.get(at).equals(token);
            at += isNext ? 1 : 0;
            return isNext;
        }

        private void expect(String token) {
            if (!take(token)) {
                throw new IllegalArgumentException(file + ":" + lines.get(at) + ": '" + token + "' is missing before '" + tokens.get(at) + "'");
            }
        }
    }

    // ---- check ----

    private boolean check() throws IOException {
        int faults = checkComments();
        int members = 0;
        for (Declared stub : declared) {
            List<String> found = new ArrayList<>();
            try {
                compare(stub, load(stub.name()), found);
            } catch (ClassNotFoundException missing) {
                found.add(stub.line() + ": the JDK has no class " + stub.name());
            }
            found.forEach(it -> System.out.println(stub.file() + ":" + it));
            faults += found.size();
            members += stub.members().size();
        }
        System.out.println(declared.size() + " classes, " + members + " members, " + faults + " faults");
        return faults == 0;
    }

    /** Each line with an annotation stands below a comment that says what it rests on, or below another such line. */
    private int checkComments() throws IOException {
        int faults = 0;
        for (Path file : new TreeSet<>(known.values())) {
            List<String> lines = file.startsWith(folder) ? Files.readAllLines(file) : List.of();
            for (int at = 0; at < lines.size(); at++) {
                if (isAnnotated(lines.get(at)) && (at == 0 || !isAnnotated(lines.get(at - 1)) && !lines.get(at - 1).strip().startsWith("//"))) {
                    System.out.println(file + ":" + (at + 1) + ": no comment says what the annotation rests on");
                    faults++;
                }
            }
        }
        return faults;
    }

    private static boolean isAnnotated(String line) {
        return line.contains("@") && !line.strip().startsWith("//");
    }

    private void compare(Declared stub, Class<?> real, List<String> found) {
        Set<String> modifiers = words(real.getModifiers() & ~Modifier.INTERFACE);
        modifiers.retainAll(real.isInterface() ? Set.of("public") : Set.of("public", "protected", "abstract", "final"));
        if (!modifiers.equals(stub.modifiers()) || stub.isInterface() != real.isInterface()) {
            found.add(stub.line() + ": " + stub.name() + " is " + modifiers + (real.isInterface() ? " interface" : " class"));
        }
        Class<?> above = visibleSuper(real);
        if (above != null && !above.getName().equals(stub.superClass())) {
            found.add(stub.line() + ": " + stub.name() + " extends " + above.getName());
        }
        Set<String> interfaces = visibleInterfaces(real);
        if (!interfaces.equals(stub.interfaces())) {
            found.add(stub.line() + ": " + stub.name() + " is directly under " + interfaces);
        }
        Map<String, Member> members = members(real, new TreeMap<>());
        boolean isClosed = members.values().stream().noneMatch(it -> it.name().equals("<init>"));
        for (Member member : stub.members()) {
            Member same = members.get(member.key());
            boolean isHiddenConstructor = member.name().equals("<init>") && member.modifiers().equals(Set.of("private")) && isClosed;
            if (!isHiddenConstructor && (same == null || !same.shape().equals(member.shape()))) {
                found.add(member.line() + ": " + stub.name() + " has " + (same == null ? "no " + member.key() : same.shape()));
            }
        }
        if (!stub.isInterface() && stub.members().stream().noneMatch(it -> it.name().equals("<init>"))) {
            found.add(stub.line() + ": " + stub.name() + " has no constructor here, so every program may make one");
        }
    }

    // ---- skeleton, omitted, uses ----

    private void printSkeleton(List<String> names) throws ClassNotFoundException {
        Map<String, List<Class<?>>> packages = new TreeMap<>();
        for (String name : new TreeSet<>(names)) {
            Class<?> of = load(name);
            known.put(name, folder.resolve(of.getPackageName() + ".astub"));
            packages.computeIfAbsent(of.getPackageName(), it -> new ArrayList<>()).add(of);
        }
        for (Map.Entry<String, List<Class<?>>> of : packages.entrySet()) {
            new SectionPrinter(of.getKey()).print(of.getValue(), System.out);
        }
    }

    /** Prints the section of a package. */
    private final class SectionPrinter {
        private final String packageName;
        private final Map<String, String> imports = new TreeMap<>();

        SectionPrinter(String packageName) {
            this.packageName = packageName;
        }

        void print(List<Class<?>> classes, PrintStream out) {
            StringBuilder text = new StringBuilder();
            for (Class<?> of : classes) {
                text.append('\n');
                addClass(of, text);
            }
            out.println("package " + packageName + ";");
            new TreeSet<>(imports.values()).forEach(it -> out.println("import " + it + ";"));
            out.print(text);
        }

        private void addClass(Class<?> of, StringBuilder text) {
            Set<String> modifiers = words(of.getModifiers());
            modifiers.retainAll(of.isInterface() ? Set.of("public") : Set.of("public", "protected", "abstract", "final"));
            text.append(String.join(" ", modifiers)).append(of.isInterface() ? " interface " : " class ").append(simple(of.getName()));
            Class<?> above = visibleSuper(of);
            if (above != null && above != Object.class) {
                text.append(" extends ").append(simple(above.getName()));
            }
            List<String> interfaces = visibleInterfaces(of).stream().map(this::simple).toList();
            if (!interfaces.isEmpty()) {
                text.append(of.isInterface() ? " extends " : " implements ").append(String.join(", ", interfaces));
            }
            text.append(" {\n");
            Map<String, Member> members = members(of, new TreeMap<>());
            if (!of.isInterface() && members.values().stream().noneMatch(it -> it.name().equals("<init>"))) {
                text.append("  private ").append(simple(of.getName())).append("();\n");
            }
            for (Member member : sorted(members.values())) {
                text.append("  ").append(line(of, member)).append('\n');
            }
            text.append("}\n");
        }

        private List<Member> sorted(Iterable<Member> members) {
            List<Member> all = new ArrayList<>();
            members.forEach(all::add);
            all.sort((one, other) -> {
                int kinds = Integer.compare(kind(one), kind(other));
                int names = kinds != 0 || one.parameters() == null ? kinds : one.name().compareTo(other.name());
                int counts = names != 0 || one.parameters() == null ? names
                        : Integer.compare(one.parameters().size(), other.parameters().size());
                return counts != 0 ? counts : one.key().compareTo(other.key());
            });
            return all;
        }

        private int kind(Member member) {
            return member.parameters() == null ? 0 : member.name().equals("<init>") ? 1 : 2;
        }

        private String line(Class<?> of, Member member) {
            String start = member.modifiers().isEmpty() ? "" : String.join(" ", member.modifiers()) + " ";
            String name = member.name().equals("<init>") ? simple(of.getName()) : simple(member.result()) + " " + member.name();
            if (member.parameters() == null) {
                return start + name + ";";
            }
            List<String> parameters = new ArrayList<>();
            for (String type : member.parameters()) {
                parameters.add(simple(type) + " p" + (parameters.size() + 1));
            }
            String thrown = member.thrown().stream().map(this::simple).collect(Collectors.joining(", "));
            return start + name + "(" + String.join(", ", parameters) + ")" + (thrown.isEmpty() ? "" : " throws " + thrown) + ";";
        }

        /** The name of a type in this section; an import of it, where one is needed. */
        private String simple(String type) {
            String name = type.endsWith("[]") ? type.substring(0, type.length() - 2) : type;
            String end = type.substring(name.length());
            String last = name.substring(name.lastIndexOf('.') + 1);
            if (!name.contains(".") || name.equals(packageName + "." + last)) {
                return last + end;
            }
            if (known.containsKey(packageName + "." + last)) {
                return type;
            }
            if (name.equals("java.lang." + last)) {
                return last + end;
            }
            return known.containsKey("java.lang." + last) || !imports.computeIfAbsent(last, it -> name).equals(name) ? type : last + end;
        }
    }

    private void printOmitted(List<String> names) throws ClassNotFoundException {
        for (Declared stub : declared) {
            if (names.isEmpty() || names.contains(stub.name())) {
                Map<String, String> omitted = new TreeMap<>();
                Set<String> missing = new TreeSet<>(members(load(stub.name()), omitted).keySet());
                omitted.keySet().removeAll(missing);
                stub.members().forEach(it -> missing.remove(it.key()));
                missing.forEach(it -> System.out.println(stub.name() + "." + it + ": left out"));
                omitted.forEach((it, why) -> System.out.println(stub.name() + "." + it + ": " + why));
            }
        }
    }

    private void printUses(List<String> names) {
        Set<Path> needed = new TreeSet<>();
        List<Path> open = names.stream().map(Path::of).collect(Collectors.toCollection(ArrayList::new));
        while (!open.isEmpty()) {
            Path file = open.remove(open.size() - 1);
            if (needed.add(file)) {
                open.addAll(namedBy(file));
            }
        }
        System.out.println(needed.stream().map(Path::toString).collect(Collectors.joining(" ")));
    }

    /** The stub files that declare what a stub file names. */
    private Set<Path> namedBy(Path file) {
        Set<String> types = new TreeSet<>();
        for (Declared stub : declared) {
            if (stub.file().equals(file)) {
                types.add(stub.superClass());
                types.addAll(stub.interfaces());
                for (Member member : stub.members()) {
                    types.add(member.result());
                    types.addAll(member.thrown());
                    types.addAll(member.parameters() == null ? List.of() : member.parameters());
                }
            }
        }
        Set<Path> files = new TreeSet<>();
        for (String type : types) {
            Path of = known.get(type.endsWith("[]") ? type.substring(0, type.length() - 2) : type);
            if (of != null && !of.equals(Path.of("core.astub"))) {
                files.add(of);
            }
        }
        return files;
    }
}
