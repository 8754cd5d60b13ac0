package kilim;

import java.lang.reflect.Array;
import java.lang.reflect.Field;
import java.lang.reflect.Modifier;
import java.util.ArrayList;
import java.util.Arrays;
import java.util.List;

/**
 * Writes the shapes of trees, for a journal alone: each object as its class and, in parentheses, its fields, those of superclasses
 * first. Fields are read by reflection, since most are private. No call stands for each level of the tree.
 */
final class Shapes {
    private static final int FEW = 16;

    /** What is written of the objects of a class: its name and its fields. */
    private static final class Plan {
        final String name;
        final Field[] fields;
        final Class<?>[] types;

        Plan(Class<?> type) {
            name = new Text().name(type.getName()).toString();
            List<Field> all = new ArrayList<Field>();
            if (!type.isArray()) {
                for (Class<?> at = type; at != Object.class && at != Task.class; at = at.getSuperclass()) {
                    all.addAll(0, ownFields(at));
                }
            }
            fields = all.toArray(new Field[0]);
            types = new Class<?>[fields.length];
            for (int i = 0; i < fields.length; i++) {
                types[i] = fields[i].getType();
            }
        }

        private static List<Field> ownFields(Class<?> type) {
            List<Field> own = new ArrayList<Field>();
            for (Field field : type.getDeclaredFields()) {
                if (!Modifier.isStatic(field.getModifiers())) {
                    field.setAccessible(true);
                    own.add(field);
                }
            }
            return own;
        }
    }

    private static final ClassValue<Plan> PLANS = new ClassValue<Plan>() {
        @Override
        protected Plan computeValue(Class<?> type) {
            return new Plan(type);
        }
    };

    // the objects that are open, from the root down; of each its plan, and the place of what is written of it next
    private Object[] open = new Object[FEW];
    private Plan[] plans = new Plan[FEW];
    private int[] places = new int[FEW];
    private int depth;
    private int objects;

    /** Writes the shape of a tree; its task ends where it has too many objects. */
    void write(Object root, Text text) {
        depth = 0;
        objects = 0;
        reference(root, text);
        try {
            while (depth > 0) {
                step(text);
            }
        } catch (IllegalAccessException impossible) {
            throw new AssertionError(impossible);
        }
        Arrays.fill(open, 0, Math.min(open.length, objects), null);
    }

    /** Writes a value, or opens an object. */
    private void reference(Object value, Text text) {
        if (value == null) {
            text.put("null");
        } else if (value instanceof String) {
            text.quoted((String) value);
        } else if (value instanceof Mailbox) {
            text.put('@').box((Mailbox) value);
        } else {
            if (++objects > Settings.MOST_OBJECTS) {
                throw new Ended("large");
            }
            if (depth == open.length) {
                open = Arrays.copyOf(open, 2 * depth);
                plans = Arrays.copyOf(plans, 2 * depth);
                places = Arrays.copyOf(places, 2 * depth);
            }
            Plan plan = PLANS.get(value.getClass());
            open[depth] = value;
            plans[depth] = plan;
            places[depth] = 0;
            depth++;
            text.put(plan.name).put('(');
        }
    }

    /** Goes on with the innermost object: up to the next one that it opens, or closes it. */
    private void step(Text text) throws IllegalAccessException {
        int at = depth - 1;
        Object object = open[at];
        if (object instanceof Object[]) {
            Object[] elements = (Object[]) object;
            while (places[at] < elements.length) {
                separate(places[at], text);
                reference(elements[places[at]++], text);
                if (depth > at + 1) {
                    return;
                }
            }
        } else if (object.getClass().isArray()) {
            numbers(object, text);
        } else {
            Plan plan = plans[at];
            while (places[at] < plan.fields.length) {
                int place = places[at]++;
                separate(place, text);
                field(object, plan.fields[place], plan.types[place], text);
                if (depth > at + 1) {
                    return;
                }
            }
        }
        text.put(')');
        depth = at;
    }

    private static void separate(int place, Text text) {
        if (place > 0) {
            text.put(',');
        }
    }

    private void field(Object object, Field field, Class<?> type, Text text) throws IllegalAccessException {
        if (type == int.class || type == byte.class || type == short.class) {
            text.number(field.getInt(object));
        } else if (type == long.class) {
            text.number(field.getLong(object)).put('L');
        } else if (type == boolean.class) {
            text.number(field.getBoolean(object) ? 1 : 0);
        } else if (type == char.class) {
            text.number(field.getChar(object));
        } else {
            reference(field.get(object), text);
        }
    }

    /** The elements of an array of numbers. */
    private static void numbers(Object array, Text text) {
        for (int i = 0; i < Array.getLength(array); i++) {
            separate(i, text);
            if (array instanceof long[]) {
                text.number(((long[]) array)[i]).put('L');
            } else if (array instanceof boolean[]) {
                text.number(((boolean[]) array)[i] ? 1 : 0);
            } else if (array instanceof char[]) {
                text.number(((char[]) array)[i]);
            } else {
                text.number(Array.getInt(array, i));
            }
        }
    }
}
