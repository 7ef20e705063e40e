/* The native methods of Host.java, which says how they are built. */
#include "../unpacker.h"

#include <jni.h>
#include <stdint.h>

/* Throws an exception, which Java sees once the call of C has returned. */
static void fail(JNIEnv *env, const char *why) {
    jclass class = (*env)->FindClass(env, "java/lang/IllegalArgumentException");
    if (class != NULL) {
        (void)(*env)->ThrowNew(env, class, why); /* where it fails, another exception is pending, as with a class that isn't found */
    }
}

JNIEXPORT jlong JNICALL Java_Host_open(JNIEnv *env, jclass class, jstring file) {
    const char *path = (*env)->GetStringUTFChars(env, file, NULL), *why = NULL;
    Unpacker *unpacker = path != NULL ? unpacker_new(path, &why) : NULL;
    (void)class;
    if (path != NULL) {
        (*env)->ReleaseStringUTFChars(env, file, path);
    }
    if (why != NULL) {
        fail(env, why);
    }
    return (jlong)(intptr_t)unpacker;
}

JNIEXPORT jstring JNICALL Java_Host_unpack(JNIEnv *env, jclass class, jlong unpacker, jstring packed) {
    const char *from = (*env)->GetStringUTFChars(env, packed, NULL), *wrong;
    char text[UNPACKED_MAX + 1];
    (void)class;
    if (from == NULL) {
        return NULL;
    }
    wrong = unpacker_unpack((Unpacker *)(intptr_t)unpacker, from, text);
    (*env)->ReleaseStringUTFChars(env, packed, from);
    if (wrong != NULL) {
        fail(env, wrong);
        return NULL;
    }
    return (*env)->NewStringUTF(env, text);
}
