import com.google.debugging.sourcemap.SourceMapGeneratorV3;
import com.google.debugging.sourcemap.SourceMapSection;
import java.nio.file.Files;
import java.nio.file.Path;
import java.util.ArrayList;
import java.util.List;

/** IndexMap TO FILE (MAP LINE COLUMN)..: writes the indexed map of these maps, by the generator of Closure Compiler. */
class IndexMap {
    public static void main(String[] words) throws Exception {
        List<SourceMapSection> sections = new ArrayList<>();
        for (int at = 2; at < words.length; at += 3) {
            int line = Integer.parseInt(words[at + 1]), column = Integer.parseInt(words[at + 2]);
            sections.add(SourceMapSection.forMap(Files.readString(Path.of(words[at])), line, column));
        }
        StringBuilder text = new StringBuilder();
        new SourceMapGeneratorV3().appendIndexMapTo(text, words[1], sections);
        Files.writeString(Path.of(words[0]), text);
    }
}
