export * from 'junketscarp/convert-source-map';
export { default } from 'junketscarp/convert-source-map';
