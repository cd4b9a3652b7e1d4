package boomer.cli;

import boomer.ask.Answer;
import boomer.ask.BadPlace;
import boomer.ask.Place;
import boomer.ask.Places;
import boomer.ask.Question;
import boomer.classes.BadInput;
import boomer.close.Closed;
import boomer.close.Linking;
import boomer.program.Advice;
import boomer.program.Program;
import boomer.program.ProgramFailed;
import boomer.program.Reply;
import com.fasterxml.jackson.databind.ObjectMapper;
import com.fasterxml.jackson.databind.SerializationFeature;
import java.io.IOException;
import java.nio.file.Files;
import java.nio.file.Path;
import java.util.ArrayList;
import java.util.Arrays;
import java.util.List;
import java.util.concurrent.Callable;
import picocli.CommandLine.Command;
import picocli.CommandLine.Mixin;
import picocli.CommandLine.Option;
import picocli.CommandLine.ParameterException;
import picocli.CommandLine.Model.CommandSpec;
import picocli.CommandLine.Parameters;
import picocli.CommandLine.Spec;

/** {@code ask}: what a variable may hold, or whether two may hold one object. */
@Command(name = "ask", description = "What a variable may hold, or whether two may hold one object.")
final class AskCommand implements Callable<Integer> {
    @Mixin
    private Closing closing;

    @Spec
    private CommandSpec spec;

    @Parameters(index = "0", paramLabel = "FILE:LINE", description = "a source file and a line of it")
    private String place;

    @Parameters(index = "1..*", arity = "0..2", paramLabel = "VARIABLE",
            description = "a variable, x.f.g or x[] for what fields or elements hold; two variables for aliases")
    private List<String> variables = new ArrayList<>();

    @Option(names = "--all", description = "every named variable of the line's method, or of the file without a line")
    private boolean all;

    @Option(names = "--before", description = "always just before the first statement of the line")
    private boolean isBefore;

    @Option(names = "--rounds", description = "how often calls are refined, from 1 to 8")
    private int rounds = 1;

    @Option(names = "--plain", description = "no call is refined")
    private boolean isPlain;

    @Option(names = "--raised", description = "lists what statements raise by themselves")
    private boolean withRaised;

    @Option(names = "--rests", description = "lists what the answer rests on")
    private boolean withRests;

    @Option(names = "--json", description = "where the answers are written as JSON")
    private Path json;

    @Override
    public Integer call() throws BadInput, BadPlace, Linking.NotLinked, ProgramFailed, IOException {
        int colon = place.lastIndexOf(':');
        String file = colon < 0 ? place : place.substring(0, colon);
        int line = colon < 0 ? 0 : line(place.substring(colon + 1));
        if (all != variables.isEmpty() || line == 0 && !all) {
            throw new ParameterException(spec.commandLine(), "give FILE:LINE and one or two variables, or --all");
        }
        Program program = closing.program();
        Closed closed = closing.linked(program);
        Question question = new Question(closed, program, closing.sources(), closing.budget());
        Places places = new Places(closed.map());
        List<Answer> answers = all ? question.all(places.all(file, line)) : asked(question, places, file, line);
        return tell(answers);
    }

    private int line(String word) {
        try {
            return Integer.parseInt(word);
        } catch (NumberFormatException e) {
            throw new ParameterException(spec.commandLine(), "`" + word + "` is no line");
        }
    }

    private List<Answer> asked(Question question, Places places, String file, int line) throws BadPlace, ProgramFailed {
        String[] path = variables.get(0).replace("[]", ".[]").split("\\.");
        List<Answer> answers = new ArrayList<>();
        for (Place each : places.find(file, line, path[0], isBefore)) {
            if (variables.size() == 2) {
                Place second = places.beside(each, variables.get(1));
                answers.add(question.alias(each, second));
            } else if (path.length > 1) {
                answers.add(question.path(each, Arrays.asList(path).subList(1, path.length)));
            } else {
                answers.add(question.holds(each, isPlain ? 0 : rounds));
            }
        }
        return answers;
    }

    private int tell(List<Answer> answers) throws IOException {
        if (json != null) {
            Files.writeString(json,
                    new ObjectMapper().enable(SerializationFeature.INDENT_OUTPUT).writeValueAsString(answers));
        }
        int status = Status.ANSWERED;
        for (Answer each : answers) {
            each.lines(withRaised, withRests).forEach(System.out::println);
            if (each.reply().get(0).startsWith("refused ")) {
                Reply.Refused refused = new Reply.Refused(each.reply(),
                        List.of(each.reply().get(0).substring("refused ".length()).split(" ")), each.status());
                System.err.println("boomer-java: " + each.reply().get(0) + ": " + Advice.of(refused));
                status = Status.REFUSED;
            }
        }
        return status;
    }
}
