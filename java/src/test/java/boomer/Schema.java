package boomer;

import static org.junit.jupiter.api.Assertions.assertEquals;
import static org.junit.jupiter.api.Assertions.assertTrue;

import com.fasterxml.jackson.databind.JsonNode;
import java.util.ArrayList;
import java.util.List;
import java.util.TreeSet;

/** Holds JSON against a schema, as far as the project's own schemas go: types, properties, items and references. */
final class Schema {
    private Schema() { }

    /** Fails where a value isn't of the schema: each property has to be there, and no other. */
    static void hold(JsonNode whole, JsonNode schema, JsonNode value, String where) {
        if (schema.has("$ref")) {
            String name = schema.get("$ref").asText().substring("#/$defs/".length());
            hold(whole, whole.get("$defs").get(name), value, where);
            return;
        }
        List<String> types = new ArrayList<>();
        if (schema.get("type").isArray()) {
            schema.get("type").forEach(type -> types.add(type.asText()));
        } else {
            types.add(schema.get("type").asText());
        }
        assertTrue(types.contains(typeOf(value)), where + " is " + typeOf(value) + " and not of " + types);
        if (value.isObject()) {
            assertEquals(names(schema.get("properties")), names(value), where);
            value.fieldNames().forEachRemaining(name ->
                    hold(whole, schema.get("properties").get(name), value.get(name), where + "." + name));
        }
        if (value.isArray()) {
            value.forEach(item -> hold(whole, schema.get("items"), item, where + "[]"));
        }
    }

    private static TreeSet<String> names(JsonNode node) {
        TreeSet<String> names = new TreeSet<>();
        node.fieldNames().forEachRemaining(names::add);
        return names;
    }

    private static String typeOf(JsonNode value) {
        if (value.isIntegralNumber()) {
            return "integer";
        }
        return value.getNodeType().name().toLowerCase(java.util.Locale.ROOT);
    }
}
