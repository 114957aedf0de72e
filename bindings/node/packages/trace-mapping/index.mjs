export * from 'junketscarp/trace-mapping';
