package forced;

import com.sun.source.tree.*;
import com.sun.source.util.*;
import java.io.*;
import java.net.*;
import java.nio.file.*;
import java.util.*;
import javax.lang.model.element.*;
import javax.tools.*;

/**
 * Takes programs of several threads, puts a gate before each action of their class texts, and forces lists of steps on
 * them.
 *
 * The word is a folder with a file `programs`: a line `NAME THREADS LISTS` for each. Of a program there are
 * `NAME/Classes.java`, in a package of that name, `NAME/Main.java`, which is a `Gate.Program`, and the lists `NAME/1`,
 * `NAME/2` and so on. A line of a list is a kind, a thread's number and a text: `do` and a step, and then of each
 * thread what holds in the end: `next` and a step, `waits` and a step that doesn't come about, or `over`. Prints for
 * each list `== NAME LIST`, the history, and what differs.
 */
public final class Forced {
  private final JavaCompiler javac = ToolProvider.getSystemJavaCompiler();
  private final StandardJavaFileManager files = javac.getStandardFileManager(null, null, null);
  private final Path folder;

  private Forced(Path folder) { this.folder = folder; }

  private JavacTask task(List<Path> texts, String... options) {
    List<String> words = new ArrayList<>(List.of("-nowarn", "-proc:none", "-Xmaxerrs", "1000"));
    words.addAll(List.of("-cp", System.getProperty("java.class.path")));
    words.addAll(List.of(options));
    return (JavacTask) javac.getTask(null, files, null, words, null, files.getJavaFileObjectsFromPaths(texts));
  }

  /** Writes the class texts with their gates. */
  private List<Path> gated(List<Path> texts) throws IOException {
    JavacTask task = task(texts);
    List<CompilationUnitTree> units = new ArrayList<>();
    task.parse().forEach(units::add);
    task.analyze();
    List<Path> written = new ArrayList<>();
    for (CompilationUnitTree unit : units) {
      Path from = Path.of(unit.getSourceFile().toUri());
      Path to = folder.resolve("gated").resolve(from.getParent().getFileName()).resolve("Classes.java");
      Files.createDirectories(to.getParent());
      written.add(Files.writeString(to, new Gates(unit, Trees.instance(task)).text()));
    }
    return written;
  }

  private void compile(List<Path> texts) throws IOException {
    Path out = Files.createDirectories(folder.resolve("out"));
    if (!task(texts, "-d", out.toString()).call()) throw new IOException("javac refuses a text with gates");
  }

  private void force(String name, int threads, int lists, ClassLoader loader, PrintStream out) throws Exception {
    for (int list = 1; list <= lists; list++) {
      Gate.Program program = (Gate.Program) loader.loadClass(name + ".Main").getDeclaredConstructor().newInstance();
      List<String[]> steps = new ArrayList<>(), ends = new ArrayList<>();
      for (String line : Files.readAllLines(folder.resolve(name).resolve("" + list))) {
        String[] words = line.split(" ", 3);
        (words[0].equals("do") ? steps : ends).add(words);
      }
      int[] who = steps.stream().mapToInt(step -> Integer.parseInt(step[1])).toArray();
      String[] texts = steps.stream().map(step -> step[2]).toArray(String[]::new);
      Gate.Run run = new Gate.Run(who, texts, threads, program);
      run.force();
      for (String[] end : ends) run.ends(Integer.parseInt(end[1]), end[0], end.length > 2 ? end[2] : "");
      out.print("== " + name + " " + list + "\n" + run.history());
    }
  }

  public static void main(String[] words) throws Exception {
    Path folder = Path.of(words[0]);
    Forced forced = new Forced(folder);
    List<String> programs = Files.readAllLines(folder.resolve("programs"));
    List<Path> classes = new ArrayList<>(), mains = new ArrayList<>();
    for (String program : programs) {
      classes.add(folder.resolve(program.split(" ")[0]).resolve("Classes.java"));
      mains.add(folder.resolve(program.split(" ")[0]).resolve("Main.java"));
    }
    mains.addAll(forced.gated(classes));
    forced.compile(mains);
    PrintStream out = new PrintStream(new BufferedOutputStream(new FileOutputStream(FileDescriptor.out)), false);
    ClassLoader loader = new URLClassLoader(new URL[] {folder.resolve("out").toUri().toURL()});
    for (String program : programs) {
      String[] parts = program.split(" ");
      forced.force(parts[0], Integer.parseInt(parts[1]), Integer.parseInt(parts[2]), loader, out);
    }
    out.flush();
    Runtime.getRuntime().halt(0);
  }

  /** The gates of one class text: pieces put in before and after nodes of its tree, or in the place of text between. */
  private static final class Gates extends TreePathScanner<Void, Void> {
    private static final Set<String> OPERATIONS =
        Set.of("getReference", "isMarked", "get", "set", "compareAndSet", "attemptMark");
    private static final Map<String, String> LOCKINGS =
        Map.of("lock", "locks ", "unlock", "unlocks ", "tryLock", "tries ",
            "isHeldByCurrentThread", "asks whether it holds ");

    private final CompilationUnitTree unit;
    private final Trees trees;
    private final String source;
    private final NavigableMap<Integer, StringBuilder> before = new TreeMap<>(), after = new TreeMap<>();
    private final NavigableMap<Integer, Integer> cuts = new TreeMap<>();
    private final Map<Integer, String> places = new HashMap<>();
    private int counted;

    Gates(CompilationUnitTree unit, Trees trees) throws IOException {
      this.unit = unit;
      this.trees = trees;
      source = unit.getSourceFile().getCharContent(true).toString();
    }

    String text() {
      scan(unit, null);
      StringBuilder text = new StringBuilder();
      for (int at = 0; at <= source.length();) {
        text.append(after.getOrDefault(at, new StringBuilder())).append(before.getOrDefault(at, new StringBuilder()));
        if (cuts.containsKey(at)) {
          text.append(places.get(at));
          at = cuts.get(at);
          continue;
        }
        if (at < source.length()) text.append(source.charAt(at));
        at++;
      }
      return text.toString();
    }

    private int start(Tree tree) { return (int) trees.getSourcePositions().getStartPosition(unit, tree); }
    private int end(Tree tree) { return (int) trees.getSourcePositions().getEndPosition(unit, tree); }

    /** Puts a piece before what stands here; of two the outer node's, which is visited first, comes first. */
    private void before(int at, String piece) { before.computeIfAbsent(at, key -> new StringBuilder()).append(piece); }

    /** Puts a piece after what ends here; of two the inner node's comes first. */
    private void after(int at, String piece) { after.computeIfAbsent(at, key -> new StringBuilder()).insert(0, piece); }

    private void inPlace(int from, int to, String piece) {
      if (from == to) {
        before(from, piece);
        return;
      }
      cuts.put(from, to);
      places.put(from, piece);
    }

    private void wrap(Tree tree, String open, String close) {
      before(start(tree), open);
      after(end(tree), close);
    }

    private static String quoted(String text) { return '"' + text + '"'; }

    private static ExpressionTree bare(ExpressionTree tree) {
      return tree instanceof ParenthesizedTree parenthesized ? bare(parenthesized.getExpression()) : tree;
    }

    private TreePath path(Tree tree) { return new TreePath(new TreePath(unit), tree); }

    private Element element(Tree tree) { return trees.getElement(path(tree)); }

    /** Whether an expression names a field of a class of the text. */
    private boolean isField(Tree tree) {
      if (!(tree instanceof IdentifierTree || tree instanceof MemberSelectTree)) return false;
      Element element = element(tree);
      return element != null && element.getKind() == ElementKind.FIELD && !element.getSimpleName().contentEquals("this")
          && element.getSimpleName().contentEquals(name(tree)) && isOwn(element);
    }

    private boolean isOwn(Element element) {
      while (element.getKind() != ElementKind.PACKAGE) element = element.getEnclosingElement();
      return ((PackageElement) element).getQualifiedName().contentEquals(unit.getPackageName().toString());
    }

    private static String name(Tree tree) {
      return tree instanceof MemberSelectTree select ? select.getIdentifier().toString() : tree.toString();
    }

    private String owner(Tree field) { return element(field).getEnclosingElement().getSimpleName().toString(); }

    // Classes and their members.

    @Override public Void visitClass(ClassTree tree, Void none) {
      String name = tree.getSimpleName().toString();
      before(source.indexOf('{', start(tree)) + 1, " { Gate.pass(\"enters new " + name + "\"); }");
      for (Tree member : tree.getMembers()) if (member instanceof VariableTree field) field(name, field, end(tree) - 1);
      return super.visitClass(tree, none);
    }

    private void field(String type, VariableTree field, int end) {
      String name = field.getName().toString(), value = quoted("." + name + ": ");
      before(end, " static void set$" + name + "(" + type + " o, " + field.getType() + " v) {"
          + " if (o == null) throw new NullPointerException();"
          + " Gate.pass(\"writes \", o, " + value + ", v); o." + name + " = v; }\n");
      if (field.getInitializer() != null) wrap(field.getInitializer(), "Gate.first(", ", this, " + value + ")");
      without("final", field.getModifiers());
    }

    private void without(String modifier, ModifiersTree modifiers) {
      int from = start(modifiers), to = end(modifiers);
      int at = from < 0 ? -1 : source.substring(from, to).indexOf(modifier);
      if (at >= 0) inPlace(from + at, from + at + modifier.length(), "");
    }

    @Override public Void visitMethod(MethodTree tree, Void none) {
      if (tree.getReturnType() == null) return super.visitMethod(tree, none);
      int open = start(tree.getBody()) + 1;
      ClassTree owner = (ClassTree) getCurrentPath().getParentPath().getLeaf();
      String name = tree.getName().toString(), type = owner.getSimpleName().toString();
      String enters = " Gate.pass(" + quoted("enters " + type + "." + name) + ");";
      if (!tree.getModifiers().getFlags().contains(Modifier.SYNCHRONIZED)) {
        before(open, enters);
        return super.visitMethod(tree, none);
      }
      StringJoiner words = new StringJoiner(", "), parameters = new StringJoiner(", ");
      for (VariableTree parameter : tree.getParameters()) {
        words.add(parameter.getName());
        parameters.add(parameter.getType() + " " + parameter.getName());
      }
      String result = tree.getReturnType().toString(), back = result.equals("void") ? "" : "return ";
      without("synchronized", tree.getModifiers());
      before(open, enters + " Gate.pass(\"locks the monitor of \", this); " + back + name + "$body(" + words + "); }"
          + " synchronized " + result + " " + name + "$body(" + parameters + ") { try {");
      after(end(tree.getBody()) - 1, " } finally { Gate.pass(\"unlocks the monitor of \", this); }");
      return super.visitMethod(tree, none);
    }

    @Override public Void visitVariable(VariableTree tree, Void none) { return scan(tree.getInitializer(), none); }

    // Statements.

    @Override public Void visitSynchronized(SynchronizedTree tree, Void none) {
      ExpressionTree object = tree.getExpression();
      BlockTree block = tree.getBlock();
      String kept = "m$" + ++counted;
      String type = trees.getTypeMirror(path(bare(object))).toString().replaceAll(".*\\.", "");
      inPlace(start(tree), start(object), "{ " + type + " " + kept + " = ");
      after(end(object), "; synchronized (Gate.at(" + kept + ", \"locks the monitor of \", \"\"))");
      before(start(block) + 1, " try {");
      after(end(block) - 1, " } finally { Gate.pass(\"unlocks the monitor of \", " + kept + "); }");
      after(end(block), " }");
      return super.visitSynchronized(tree, none);
    }

    @Override public Void visitWhileLoop(WhileLoopTree tree, Void none) {
      inPlace(start(tree), start(tree.getCondition()), "for (; ");
      after(end(tree.getCondition()), "; Gate.round())");
      return super.visitWhileLoop(tree, none);
    }

    @Override public Void visitForLoop(ForLoopTree tree, Void none) {
      int close = source.lastIndexOf(')', start(tree.getStatement()) - 1);
      after(close, tree.getUpdate().isEmpty() ? "Gate.round()" : ", Gate.round()");
      return super.visitForLoop(tree, none);
    }

    @Override public Void visitAssignment(AssignmentTree tree, Void none) {
      ExpressionTree left = bare(tree.getVariable()), value = tree.getExpression();
      if (left instanceof ArrayAccessTree access) {
        inPlace(start(tree), start(access.getExpression()), "Gate.putItem(");
        inPlace(end(access.getExpression()), start(access.getIndex()), ", ");
        inPlace(end(access.getIndex()), start(value), ", ");
        after(end(value), ")");
        scan(access.getExpression(), none);
        scan(access.getIndex(), none);
      } else if (isField(left)) {
        String setter = owner(left) + ".set$" + name(left) + "(";
        if (left instanceof MemberSelectTree select) {
          inPlace(start(tree), start(select.getExpression()), setter);
          inPlace(end(select.getExpression()), start(value), ", ");
          scan(select.getExpression(), none);
        } else {
          inPlace(start(tree), start(value), setter + "this, ");
        }
        after(end(value), ")");
      }
      return scan(value, none);
    }

    @Override public Void visitCompoundAssignment(CompoundAssignmentTree tree, Void none) {
      ExpressionTree left = bare(tree.getVariable());
      if (isField(left)) {
        wrap(tree.getExpression(), "Gate.then(", then(left));
        kept(left);
      }
      return scan(tree.getExpression(), none);
    }

    @Override public Void visitUnary(UnaryTree tree, Void none) {
      ExpressionTree operand = tree.getExpression(), left = bare(operand);
      boolean up = tree.getKind() == Tree.Kind.POSTFIX_INCREMENT || tree.getKind() == Tree.Kind.PREFIX_INCREMENT;
      boolean down = tree.getKind() == Tree.Kind.POSTFIX_DECREMENT || tree.getKind() == Tree.Kind.PREFIX_DECREMENT;
      if (!up && !down) return super.visitUnary(tree, none);
      if (!isField(left)) return null;
      String change = (up ? " += " : " -= ") + "Gate.then(1" + then(left);
      if (start(operand) > start(tree)) {
        inPlace(start(tree), start(operand), "");
        after(end(tree), change);
      } else {
        inPlace(end(operand), end(tree), change);
      }
      kept(left);
      return null;
    }

    private String then(ExpressionTree left) {
      return ", " + quoted(owner(left)) + ", " + quoted("." + name(left)) + ")";
    }

    /** A field that is read and then written: Java keeps its object. */
    private void kept(ExpressionTree left) {
      String field = ", \"reads \", " + quoted("." + name(left)) + ")";
      if (left instanceof MemberSelectTree select) {
        wrap(select.getExpression(), "Gate.at(", field);
        scan(select.getExpression(), null);
      } else {
        before(start(left), "Gate.at(this" + field + ".");
      }
    }

    // Expressions.

    @Override public Void visitIdentifier(IdentifierTree tree, Void none) {
      if (isField(tree)) wrap(tree, "Gate.saw(Gate.at(this, \"reads \", " + quoted("." + tree.getName()) + ").", ")");
      return null;
    }

    @Override public Void visitMemberSelect(MemberSelectTree tree, Void none) {
      if (!isField(tree)) return super.visitMemberSelect(tree, none);
      wrap(tree, "Gate.saw(", ")");
      wrap(tree.getExpression(), "Gate.at(", ", \"reads \", " + quoted("." + tree.getIdentifier()) + ")");
      return scan(tree.getExpression(), none);
    }

    @Override public Void visitArrayAccess(ArrayAccessTree tree, Void none) {
      before(start(tree), "Gate.item(");
      inPlace(end(tree.getExpression()), start(tree.getIndex()), ", ");
      inPlace(end(tree.getIndex()), end(tree), ")");
      return super.visitArrayAccess(tree, none);
    }

    @Override public Void visitNewArray(NewArrayTree tree, Void none) {
      wrap(tree, "Gate.saw(", ")");
      wrap(tree.getDimensions().get(0), "Gate.size(", ")");
      return scan(tree.getDimensions(), none);
    }

    @Override public Void visitNewClass(NewClassTree tree, Void none) {
      String name = tree.getIdentifier().toString();
      if (name.equals("ReentrantLock")) {
        inPlace(start(tree), end(tree), "Gate.newLock()");
      } else if (name.startsWith("AtomicMarkableReference")) {
        String inner = tree.getIdentifier() instanceof ParameterizedTypeTree type && !type.getTypeArguments().isEmpty()
            ? "<" + type.getTypeArguments().get(0) + ">" : "";
        inPlace(start(tree), start(tree.getArguments().get(0)), "Gate." + inner + "newMarkable(");
      } else {
        wrap(tree, "Gate.made(Gate.makes(" + quoted(name) + "), ", ")");
      }
      return scan(tree.getArguments(), none);
    }

    @Override public Void visitMethodInvocation(MethodInvocationTree tree, Void none) {
      if (!(tree.getMethodSelect() instanceof MemberSelectTree select) || isOwn(element(select))) {
        return super.visitMethodInvocation(tree, none);
      }
      ExpressionTree base = select.getExpression();
      String name = select.getIdentifier().toString();
      if (LOCKINGS.containsKey(name)) {
        if (name.equals("tryLock") || name.equals("isHeldByCurrentThread")) wrap(tree, "Gate.saw(", ")");
        wrap(base, "Gate.at(", ", " + quoted(LOCKINGS.get(name)) + ", \"\")");
      } else if (OPERATIONS.contains(name)) {
        before(start(tree), "Gate." + name + "(");
        if (tree.getArguments().isEmpty()) inPlace(end(base), end(tree), ")");
        else inPlace(end(base), start(tree.getArguments().get(0)), ", ");
      }
      scan(base, none);
      return scan(tree.getArguments(), none);
    }
  }
}
