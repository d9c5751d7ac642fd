/* What both native libraries share: exceptions that they throw. */
#ifndef NUTRAMEZA_JAVA_THROWN_H
#define NUTRAMEZA_JAVA_THROWN_H

#include <jni.h>

/* Throws an exception of a class by name; where there is no such class, what FindClass throws is pending. */
static inline void throw_new(JNIEnv *env, const char *name, const char *words)
{
    jclass class = (*env)->FindClass(env, name);
    if (class == NULL)
        return;
    (*env)->ThrowNew(env, class, words);
    (*env)->DeleteLocalRef(env, class);
}

static inline void no_memory(JNIEnv *env) { throw_new(env, "java/lang/OutOfMemoryError", "no memory for a copy"); }
static inline void wrong(JNIEnv *env, const char *words)
{
    throw_new(env, "java/lang/IllegalArgumentException", words);
}

#endif
