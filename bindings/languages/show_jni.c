/* The half in C of ShowJni.java. HOME is the folder of the JDK:

   cc -shared -fPIC -I HOME/include -I HOME/include/linux -I bindings -o out/libshow_jni.so bindings/languages/show_jni.c out/libp25.a
   javac -d out bindings/languages/ShowJni.java */
#include "p25.h"

#include <jni.h>

JNIEXPORT jstring JNICALL Java_ShowJni_nextItem(JNIEnv *env, jclass type, jobject octets, jlong from, jlongArray end) {
    const uint8_t *first = (*env)->GetDirectBufferAddress(env, octets);
    jlong n = (*env)->GetDirectBufferCapacity(env, octets);
    p25_item item = {0};
    char text[P25_TEXT_ROOM] = {0};
    (void)type;
    if (first == NULL || n < 0) {
        (*env)->ThrowNew(env, (*env)->FindClass(env, "java/lang/IllegalArgumentException"), "nextItem takes a direct buffer");
        return NULL;
    }
    if (p25_next_item(first, (size_t)n, 0, (uint64_t)from, true, &item, text, sizeof text) != P25_ITEM) {
        return NULL;
    }
    from = (jlong)(item.place + item.bits);
    (*env)->SetLongArrayRegion(env, end, 0, 1, &from);
    return (*env)->NewStringUTF(env, text);
}
