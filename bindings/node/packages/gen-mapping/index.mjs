export * from 'junketscarp/gen-mapping';
