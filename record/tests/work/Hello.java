import java.nio.file.*;
public class Hello {
  public static void main(String[] words) throws Exception {
    Path file = Files.writeString(Path.of("java.txt"), "x");
    Files.move(file, Path.of("out/java.txt"));
    Files.delete(Path.of("out/java.txt"));
    System.out.println(Files.readAllLines(Path.of("words.txt")).size());
  }
}
