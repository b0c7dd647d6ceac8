/* Functions that LibraryCalls calls in translated programs, as native code for the Java Native Interface (JniCalls.java). */
#include <jni.h>
#include <string.h>

JNIEXPORT jint JNICALL Java_JniCalls_add(JNIEnv *env, jclass own, jint a, jint b) {
    (void)env;
    (void)own;
    return a + b;
}

JNIEXPORT jint JNICALL Java_JniCalls_length(JNIEnv *env, jclass own, jstring text) {
    const char *bytes = (*env)->GetStringUTFChars(env, text, NULL);
    jint length;
    (void)own;
    if (!bytes) return -1;
    length = (jint)strlen(bytes);
    (*env)->ReleaseStringUTFChars(env, text, bytes);
    return length;
}

JNIEXPORT jint JNICALL Java_JniCalls_sum(JNIEnv *env, jclass own, jbyteArray array, jint count) {
    jbyte *bytes = (*env)->GetByteArrayElements(env, array, NULL);
    jint sum = 0;
    (void)own;
    if (!bytes) return -1;
    for (jint i = 0; i < count; i++) sum += (unsigned char)bytes[i];
    (*env)->ReleaseByteArrayElements(env, array, bytes, 0);
    return sum;
}

JNIEXPORT jint JNICALL Java_JniCalls_loop(JNIEnv *env, jclass own, jobject next, jint count) {
    jmethodID method = (*env)->GetMethodID(env, (*env)->GetObjectClass(env, next), "next", "(I)I");
    jint number = 0;
    (void)own;
    if (!method) return -1;
    while (count-- > 0 && !(*env)->ExceptionCheck(env)) number = (*env)->CallIntMethod(env, next, method, number);
    return number;
}
