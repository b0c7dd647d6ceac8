package nestedvm;

import java.lang.annotation.Documented;
import java.lang.annotation.ElementType;
import java.lang.annotation.Retention;
import java.lang.annotation.RetentionPolicy;
import java.lang.annotation.Target;

/**
 * What C gets from a function of Java that throws, on the method of its interface. C goes on with it, and what was thrown ends the call that Java
 * made, once C has returned from it. Without this it ends the call at once, and C does not go on, as after a longjmp.
 */
@Documented
@Retention(RetentionPolicy.RUNTIME)
@Target(ElementType.METHOD)
public @interface DefaultAnswer {
    /**
     * The answer.
     *
     * @return the number
     */
    int value();
}
